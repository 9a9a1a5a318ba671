// A heap with a mutex and a condition variable, and the queue that takes its place: jobs of two threads come out of both alike.
#include "../check.h"
#include "flatpq_tasks.hpp"

#include <condition_variable>
#include <functional>
#include <mutex>
#include <queue>
#include <string>
#include <thread>
#include <utility>
#include <vector>

using job = std::pair<int, std::string>;

namespace before {

class jobs {
    std::mutex mutex;
    std::condition_variable ready;
    std::priority_queue<job, std::vector<job>, std::greater<job>> heap;

public:
    void add(int key, std::string name) {
        const std::lock_guard<std::mutex> held(mutex);
        heap.emplace(key, std::move(name));
        ready.notify_one();
    }
    job next() {
        std::unique_lock<std::mutex> held(mutex);
        ready.wait(held, [&] { return !heap.empty(); });
        job first = heap.top();
        heap.pop();
        return first;
    }
};

} // namespace before

namespace after {

class jobs {
    flatpq::task_queue<std::string, int> queue;

public:
    void add(int key, std::string name) { queue.push(key, std::move(name)).value(); }
    job next() {
        auto first = queue.take().value();
        return {first.priority, std::move(first.payload)};
    }
};

} // namespace after

// The first job is taken by a thread that waits for it, the others in their order.
template <class Jobs> static void come_out_in_order() {
    Jobs jobs;
    std::thread waits([&] { CHECK((jobs.next() == job{5, "tea"})); });
    sleep_ms(5);
    jobs.add(5, "tea");
    waits.join();
    jobs.add(30, "sleep");
    jobs.add(-10, "wake");
    CHECK((jobs.next() == job{-10, "wake"} && jobs.next() == job{30, "sleep"}));
}

int main() {
    come_out_in_order<before::jobs>();
    come_out_in_order<after::jobs>();
    return 0;
}
