// Light load, unverified: oneTBB's concurrent_priority_queue, which keeps no lines.
// `light_tbb tbb THREADS THINK MILLISECONDS` makes the run that light.hpp describes.
#include "light.hpp"

#include <atomic>
#include <cstdint>
#include <oneapi/tbb/concurrent_priority_queue.h>
#include <string>

// An order of pushes is known where each has a number, which all workers count by one word.
class tbb_queue {
public:
    void push(std::uint32_t, item pushed) { entries_.push({pushed, pushes_.fetch_add(1, std::memory_order_relaxed)}); }

    bool pop(std::uint32_t, item &first) {
        entry it = {};
        const bool is_there = entries_.try_pop(it);
        first = it.kept;
        return is_there;
    }

    std::uint64_t lines() { return 0; }

private:
    struct comes_later {
        bool operator()(const entry &a, const entry &b) const noexcept { return comes_before(b, a); }
    };

    std::atomic<std::uint64_t> pushes_{0};
    tbb::concurrent_priority_queue<entry, comes_later> entries_;
};

int main(int argc, char **argv) {
    light_load of = {};
    if (argc != 5 || argv[1] != std::string("tbb") || !read_light_load(argv + 2, of)) {
        std::fputs("usage: light_tbb tbb THREADS THINK MILLISECONDS\n", stderr);
        return 2;
    }
    tbb_queue shared;
    return run_light(argv[1], of, shared, false);
}
