// Unverified C++, to measure the queue's calls for C against: oneTBB's concurrent_priority_queue, which keeps no journal.
// `tbb_queue WORKERS PUSHES POPS` makes the run that `c_queue` makes, and prints the same fields:
// `tbb,WORKERS,CALLS,NANOSECONDS,audit ok`, or `audit failed` as the last field.
#include "heaps.hpp"
#include "load.hpp"

#include <cstdint>
#include <oneapi/tbb/concurrent_priority_queue.h>

// No order of pushes is known here, so of equal priorities the one of the earlier worker comes out first.
struct comes_later {
    bool operator()(const entry &a, const entry &b) const noexcept { return comes_before(b, a); }
};

using queue = tbb::concurrent_priority_queue<entry, comes_later>;

int main(int argc, char **argv) {
    load of = {};
    if (argc < 2 || !read_load(argv + 1, &of)) {
        std::fputs("usage: tbb_queue WORKERS PUSHES POPS\n", stderr);
        return 2;
    }
    worked *const did = room_for(&of);
    queue shared(std::size_t{of.workers} * of.pushes);
    const auto call_of = [&shared, &of](std::uint32_t worker) {
        return [&shared, &of, worker](std::uint32_t number, worked &made) {
            entry it = {};
            if (number < of.pushes) {
                shared.push({{priority_of(worker, number), number}, std::uint64_t{worker} << 32 | number});
            } else if (shared.try_pop(it)) {
                made.sum += it.kept.priority;
            }
        };
    };
    if (!run_in_threads(of, did, call_of)) {
        return 1;
    }
    std::uint64_t left = 0;
    std::uint64_t count = 0;
    for (entry it = {}; shared.try_pop(it); ++count) {
        left += it.kept.priority;
    }
    return tell("tbb", &of, did, left, 0, count == std::uint64_t{of.workers} * (of.pushes - of.pops));
}
