// Unverified C++, to measure the queue's calls for C against: a std::mutex around std::priority_queue and a ring of lines, or without one.
// `cpp_mutex book|heap WORKERS PUSHES POPS` makes the run that `c_queue` makes, and prints the same fields:
// `cpp-book,WORKERS,CALLS,NANOSECONDS,audit ok`, or `audit failed` as the last field.
#include "heaps.hpp"
#include "load.hpp"

#include <cstdint>
#include <mutex>
#include <string>

template <bool HasLines> static int run(const char *kind, const load &of) {
    locked<std::mutex, std_heap, HasLines> shared(of.workers);
    worked *const did = room_for(&of);
    const auto call_of = [&shared, &of](std::uint32_t worker) {
        return [&shared, &of, worker](std::uint32_t number, worked &made) {
            item first;
            if (number < of.pushes) {
                shared.push(worker, {priority_of(worker, number), number});
            } else if (shared.pop(worker, first)) {
                made.sum += first.priority;
            }
        };
    };
    if (!run_in_threads(of, did, call_of)) {
        return 1;
    }
    const bool has_all_lines = shared.lines() == calls_of(&of);
    std::uint64_t left = 0;
    std::uint64_t count = 0;
    for (item it; shared.pop(0, it); ++count) {
        left += it.priority;
    }
    return tell(kind, &of, did, left, 0, has_all_lines && count == std::uint64_t{of.workers} * (of.pushes - of.pops));
}

int main(int argc, char **argv) {
    load of = {};
    const std::string kind = argc < 2 ? "" : argv[1];
    if ((kind != "book" && kind != "heap") || !read_load(argv + 2, &of)) {
        std::fputs("usage: cpp_mutex book|heap WORKERS PUSHES POPS\n", stderr);
        return 2;
    }
    return kind == "book" ? run<true>("cpp-book", of) : run<false>("cpp-heap", of);
}
