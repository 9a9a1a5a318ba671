// A time of a clock that may be set is no deadline.
#include "flatpq.hpp"

int main() {
    auto queue = *flatpq::queue<>::open();
    return queue.pop(std::chrono::system_clock::now()) ? 0 : 1;
}
