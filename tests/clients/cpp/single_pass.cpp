// A batch is gone through twice, which a drain is not.
#include "flatpq_tasks.hpp"

int main() {
    auto from = *flatpq::task_queue<const char *>::open(), to = *flatpq::task_queue<const char *>::open();
    return to.push_many(from.drain()) ? 0 : 1;
}
