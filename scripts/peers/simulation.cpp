// A simulation in time steps: so many things have events, each of which computes and makes the next one, and workers go through
// 200 steps of time together. `simulation queue|mutex WORKERS COUNT` makes the run that events.hpp describes.
#include "events.hpp"

#include <atomic>
#include <cstdint>
#include <vector>

// When the next event of a thing comes.
static std::uint64_t next_after(std::uint64_t when, std::uint64_t came_to) { return when + 1 + came_to % 16; }

// The events of each thing don't hang on those of others, so that their sum is known.
template <class Queue> bool simulates(std::uint32_t workers, std::uint64_t things, std::uint64_t &took) {
    const std::uint64_t steps = 200;
    Queue shared(workers);
    std::atomic<std::uint64_t> sum{0};
    std::uint64_t wanted = 0;
    for (std::uint64_t thing = 0; thing < things; ++thing) {
        shared.push(0, {{thing % 16, thing}});
        for (std::uint64_t when = thing % 16, came_to = 0; when < steps; when = next_after(when, came_to)) {
            wanted += came_to = worked_out({when, thing});
        }
    }
    pthread_barrier_t step;
    pthread_barrier_init(&step, nullptr, workers);
    const std::uint64_t began = nanoseconds_now();
    run_at_once(workers, [&](std::uint32_t worker) {
        return [&, worker] {
            for (std::uint64_t now = 0; now < steps; ++now, pthread_barrier_wait(&step)) {
                std::vector<event> due, next;
                do {
                    due.clear();
                    next.clear();
                    shared.pop_due(worker, now, due);
                    for (const event &it : due) {
                        const std::uint64_t came_to = worked_out(it);
                        sum += came_to;
                        next.emplace_back(next_after(it.first, came_to), it.second);
                    }
                    shared.push(worker, next);
                } while (due.size() == most_at_once);
            }
        };
    });
    took = nanoseconds_now() - began;
    return sum == wanted;
}

int main(int, char **argv) {
    return run_program("simulation", argv + 1, simulates<members>, simulates<locked_heap>);
}
