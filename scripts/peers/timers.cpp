// A scheduler: each worker sets its share of so many timers, cancels 9 of 10 before their time, and runs what is due.
// `timers queue|mutex WORKERS COUNT` makes the run that events.hpp describes.
#include "events.hpp"

#include <atomic>
#include <cstdint>
#include <vector>

enum state : std::uint8_t { set, cancelled, ran };

// Time counts the timers that were set. Each is to run after 500 to 1,000 turns of its worker, and may be cancelled after 100.
template <class Queue> bool keeps_timers(std::uint32_t workers, std::uint64_t count, std::uint64_t &took) {
    Queue shared(workers);
    std::vector<std::atomic<std::uint8_t>> states(count);
    std::atomic<std::uint64_t> clock{0};
    std::atomic<std::uint64_t> came{0};
    std::atomic<std::uint64_t> ended{0};
    const auto run_due = [&](std::uint32_t worker, std::uint64_t now) {
        std::vector<event> due;
        do {
            due.clear();
            shared.pop_due(worker, now, due);
            came += due.size();
            for (const event &it : due) {
                std::uint8_t was = set;
                ended += states[it.second].compare_exchange_strong(was, ran) && worked_out(it) != 0;
            }
        } while (due.size() == most_at_once);
    };
    const std::uint64_t began = nanoseconds_now();
    run_at_once(workers, [&](std::uint32_t worker) {
        return [&, worker] {
            const std::uint64_t apart = 100 * workers;
            for (std::uint64_t timer = worker; timer < count; timer += workers) {
                const std::uint64_t now = clock++;
                shared.push(worker, {{now + 5 * apart + worked_out({now, timer}) % (5 * apart), timer}});
                std::uint8_t was = set;
                if (timer >= apart && timer / workers % 10 != 0) {
                    ended += states[timer - apart].compare_exchange_strong(was, cancelled);
                }
                run_due(worker, now);
            }
        };
    });
    took = nanoseconds_now() - began;
    run_due(0, UINT64_MAX);
    return came == count && ended == count;
}

int main(int, char **argv) {
    return run_program("timers", argv + 1, keeps_timers<members>, keeps_timers<locked_heap>);
}
