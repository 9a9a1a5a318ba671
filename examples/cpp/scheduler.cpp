// A scheduler. Threads share tasks, each with the hour at which it is due. A worker runs the task that is due first, and
// puts it in again for its next hour. It ends once none is due today. At the end the journal shows when each task ran.
#include "flatpq.hpp"

#include <iostream>
#include <iterator>
#include <thread>
#include <vector>

struct task {
    const char *name;
    unsigned first, period;
};
constexpr unsigned end_of_day = 24;
constexpr task tasks[] = {{"backup", 3, 12}, {"mail", 0, 4}, {"report", 8, 8}};

// The key of an item is the hour, its value the number of the task.
static void work(flatpq::member<unsigned> member) {
    while (const auto due = member.pop_due(end_of_day - 1)) {
        member.push(due->priority + tasks[due->value].period, due->value).value();
    }
}

int main() {
    flatpq::queue<unsigned> queue({4});
    for (std::size_t t = 0; t < std::size(tasks); t++) {
        queue.push(tasks[t].first, t).value();
    }
    queue.leave();
    std::vector<std::thread> threads;
    for (int i = 0; i < 4; i++) {
        threads.emplace_back(work, queue.join().value());
    }
    for (auto &thread : threads) {
        thread.join();
    }
    const auto journal = queue.close().value();
    for (std::size_t t = 0; t < std::size(tasks); t++) {
        std::cout << tasks[t].name << " ran at";
        for (const auto &entry : journal) {
            if (entry.request == flatpq::request::pop && entry.item && entry.item->value == t) {
                std::cout << ' ' << entry.item->priority;
            }
        }
        std::cout << '\n';
    }
}
