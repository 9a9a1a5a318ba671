// Light load: the queue by its calls for C, and beside it, not verified, a std::mutex and an adaptive mutex around
// std::priority_queue and a ring of lines. `light c-queue|c-own|std-mutex|adaptive-mutex THREADS THINK MILLISECONDS` makes the run that
// light.hpp describes. The threads of `c-queue` have joined, and those of `c-own` share pq_own.
#include "c_queues.hpp"
#include "light.hpp"

#include <mutex>
#include <string>

template <class Queue, class... More> static int run(const char *kind, const light_load &of, More... more) {
    Queue shared(static_cast<std::uint32_t>(of.threads), more...);
    return run_light(kind, of, shared);
}

int main(int argc, char **argv) {
    light_load of = {};
    const std::string kind = argc < 2 ? "" : argv[1];
    if (argc == 5 && read_light_load(argv + 2, of)) {
        if (kind == "c-queue" || kind == "c-own") {
            return run<c_queue>(argv[1], of, kind == "c-own");
        }
        if (kind == "std-mutex") {
            return run<locked<std::mutex, std_heap>>(argv[1], of);
        }
        if (kind == "adaptive-mutex") {
            return run<locked<adaptive_mutex, std_heap>>(argv[1], of);
        }
    }
    std::fputs("usage: light c-queue|c-own|std-mutex|adaptive-mutex THREADS THINK MILLISECONDS\n", stderr);
    return 2;
}
