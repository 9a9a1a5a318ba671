#include <flatpq_tasks.hpp>
#include <iostream>
#include <string>
#include <thread>

int main() {
    flatpq::task_queue<std::string> queue;
    if (!queue.push(30u, "sleep") || !queue.push(10u, "get up")) return 1;
    std::thread([&] { // the smallest key comes out first
        while (auto task = queue.pop()) std::cout << task->priority << ' ' << task->payload << '\n';
    }).join();
}
