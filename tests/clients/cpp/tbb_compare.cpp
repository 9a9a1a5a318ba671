// A Compare that no number stands for has no queue.
#include "flatpq_tbb.hpp"

struct job {
    int urgency;
};
struct less_urgent {
    bool operator()(const job &one, const job &other) const { return one.urgency < other.urgency; }
};

int main() {
    flatpq::concurrent_priority_queue<job, less_urgent> queue;
    return queue.empty() ? 0 : 1;
}
