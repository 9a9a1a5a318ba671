// A type without an order is no key.
#include "flatpq.hpp"

struct version {
    int major, minor;
};

int main() {
    auto queue = *flatpq::queue<version>::open();
    return queue.pop() ? 0 : 1;
}
