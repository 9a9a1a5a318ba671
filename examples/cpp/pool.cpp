// A thread pool. Forty threads share a queue of eight members, and run the jobs that come until the queue is shut and empty.
#include "flatpq_tasks.hpp"

#include <atomic>
#include <functional>
#include <iostream>
#include <thread>
#include <vector>

int main() {
    flatpq::task_queue<std::function<void()>> jobs({8});
    std::atomic<unsigned> sum{0};
    std::vector<std::thread> workers;
    for (int i = 0; i < 40; i++) {
        workers.emplace_back([&jobs] {
            while (auto job = jobs.take()) {
                job->payload();
            }
        });
    }
    for (unsigned number = 1; number <= 1000; number++) {
        jobs.push(number % 3, [&sum, number] { sum += number; }).value();
    }
    jobs.shut();
    for (auto &worker : workers) {
        worker.join();
    }
    std::cout << "sum " << sum << '\n';
}
