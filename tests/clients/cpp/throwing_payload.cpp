// A payload that may throw while it is moved has no queue.
#include "flatpq_tasks.hpp"

struct throwing {
    throwing() = default;
    throwing(throwing &&) {}
    throwing &operator=(throwing &&) = default;
};

int main() {
    return flatpq::task_queue<throwing>::open().has_value() ? 0 : 1;
}
