// Payloads are moved out of a batch, so it may not be const.
#include "flatpq_tasks.hpp"

#include <string>
#include <vector>

int main() {
    auto queue = *flatpq::task_queue<std::string>::open();
    const std::vector<flatpq::task<std::string>> batch = {{1u, "first"}};
    return queue.push_many(batch) ? 0 : 1;
}
