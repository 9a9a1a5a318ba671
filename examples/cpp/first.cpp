// Two threads push three items each into one queue. Then all come out, those with the smallest priority first.
#include "flatpq.hpp"

#include <iostream>
#include <thread>

static void push_three(flatpq::queue<> &queue) {
    for (const auto priority : {10u, 20u, 30u}) {
        queue.push(priority, 7).value();
    }
}

int main() {
    flatpq::queue<> queue;
    std::thread other([&queue] { push_three(queue); });
    push_three(queue);
    other.join();
    for (const auto &item : queue.drain()) {
        std::cout << item.priority << '\n';
    }
}
