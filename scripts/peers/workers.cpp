// Workers that share tasks, over some 1,000: each takes the first, works for about a microsecond, and puts in one that follows, until
// so many were worked. `workers queue|mutex WORKERS COUNT` makes the run that events.hpp describes; the queue is a flatpq::task_queue,
// which each thread calls itself.
#include "events.hpp"
#include "flatpq_tasks.hpp"

#include <algorithm>
#include <atomic>
#include <cstdint>
#include <optional>
#include <utility>

class task_queue {
public:
    void push(const event &pushed) { need(queue_.push(pushed.first, pushed.second).has_value(), "a push was refused"); }

    std::optional<event> pop() {
        const auto first = queue_.pop();
        return first ? std::optional<event>({first->priority, first->payload}) : std::nullopt;
    }

private:
    flatpq::task_queue<std::uint64_t> queue_;
};

class mutex_and_heap {
public:
    void push(const event &pushed) {
        const std::lock_guard<std::mutex> held(lock_);
        heap_.push(pushed);
    }

    std::optional<event> pop() {
        const std::lock_guard<std::mutex> held(lock_);
        if (heap_.empty()) {
            return std::nullopt;
        }
        const event first = heap_.top();
        heap_.pop();
        return first;
    }

private:
    std::mutex lock_;
    std::priority_queue<event, std::vector<event>, std::greater<event>> heap_;
};

// What follows a task, after some microsecond of work.
static event after(const event &task) {
    event now = task;
    for (int i = 0; i < 16; ++i) {
        now.second += worked_out(now);
    }
    return {task.first + 1 + now.second % 1000, task.second};
}

// All of 1,000 tasks are there at the end.
template <class Queue> bool works_tasks(std::uint32_t workers, std::uint64_t count, std::uint64_t &took) {
    const std::uint64_t tasks = 1000;
    Queue shared;
    std::atomic<std::uint64_t> missed{0};
    for (std::uint64_t task = 0; task < tasks; ++task) {
        shared.push({task, task});
    }
    const std::uint64_t began = nanoseconds_now();
    run_at_once(workers, [&](std::uint32_t worker) {
        return [&, worker] {
            for (std::uint64_t round = worker; round < count; round += workers) {
                const std::optional<event> first = shared.pop();
                missed += !first;
                if (first) {
                    shared.push(after(*first));
                }
            }
        };
    });
    took = nanoseconds_now() - began;
    std::vector<bool> is_there(tasks);
    std::uint64_t left = 0;
    for (auto it = shared.pop(); it; it = shared.pop(), ++left) {
        is_there[it->second] = true;
    }
    return missed == 0 && left == tasks && std::find(is_there.begin(), is_there.end(), false) == is_there.end();
}

int main(int, char **argv) { return run_program("workers", argv + 1, works_tasks<task_queue>, works_tasks<mutex_and_heap>); }
