// A signed number is no unsigned key.
#include "flatpq_tasks.hpp"

int main() {
    auto queue = *flatpq::task_queue<const char *>::open();
    return queue.push(-5, "first") ? 0 : 1;
}
