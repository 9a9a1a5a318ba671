// A signed number is no unsigned key, nor is one in a batch.
#include "flatpq.hpp"

#include <vector>

int main() {
    auto queue = *flatpq::queue<>::open();
    const std::vector<flatpq::item<int>> items = {{-5, 1}};
    return queue.push_many(items) ? 0 : 1;
}
