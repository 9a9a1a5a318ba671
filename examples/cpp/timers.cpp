// A timer service. Two threads run each function once its time has come, to the nanosecond. A heart beats by pushing its next beat, and
// its last one shuts the service. What is left runs in its time, and then the threads end.
#include "flatpq_tasks.hpp"

#include <algorithm>
#include <chrono>
#include <functional>
#include <iostream>
#include <mutex>
#include <string>
#include <thread>
#include <utility>
#include <vector>

using namespace std::chrono_literals;
using moment = std::chrono::steady_clock::time_point;
using timers = flatpq::task_queue<std::function<void()>, moment>;

// What ran, and when it was due.
class record {
public:
    void add(moment due, const char *name) {
        const bool is_early = std::chrono::steady_clock::now() < due;
        const std::lock_guard<std::mutex> held(lock_);
        ran_.emplace_back(due, std::string(name) + (is_early ? ", too early" : ""));
    }
    void print(moment start) {
        std::sort(ran_.begin(), ran_.end());
        for (const auto &[due, name] : ran_) {
            std::cout << (due - start).count() << " ns: " << name << '\n';
        }
    }

private:
    std::mutex lock_;
    std::vector<std::pair<moment, std::string>> ran_;
};

static void beat(timers &service, record &ran, moment due, int left) {
    ran.add(due, "beat");
    if (left == 0) {
        service.shut();
        return;
    }
    const moment next = due + 10ms;
    service.push(next, [&service, &ran, next, left] { beat(service, ran, next, left - 1); }).value();
}

int main() {
    timers service({3});
    record ran;
    const moment start = std::chrono::steady_clock::now(), first = start + 10ms, tea = first + 1ns, eggs = start + 45ms;
    service.push(eggs, [&ran, eggs] { ran.add(eggs, "eggs"); }).value();
    service.push(tea, [&ran, tea] { ran.add(tea, "tea"); }).value();
    service.push(first, [&service, &ran, first] { beat(service, ran, first, 3); }).value();
    std::vector<std::thread> threads;
    for (int i = 0; i < 2; i++) {
        threads.emplace_back([&service] {
            while (auto due = service.take_due()) {
                due->payload();
            }
        });
    }
    for (auto &thread : threads) {
        thread.join();
    }
    ran.print(start);
}
