// A queue that threads share is not copied.
#include "flatpq_tbb.hpp"

int main() {
    const flatpq::concurrent_priority_queue<int> queue;
    const auto copy = queue;
    return copy.empty() ? 0 : 1;
}
