// A payload asks for memory once, at its push, and its pop frees that; one that lies in the value asks for none. Where memory is refused the
// payload is where it was.
#include "../check.h"
#include "flatpq_tbb.hpp"

#include <array>
#include <memory>
#include <new>
#include <vector>

using flatpq::code;

// How many blocks there are, and how many more there may be before memory is refused.
static std::size_t blocks = 0, left_to_give = SIZE_MAX;

static void *given(std::size_t size) noexcept {
    if (left_to_give == 0) {
        return nullptr;
    }
    left_to_give -= left_to_give != SIZE_MAX;
    ++blocks;
    return std::malloc(size);
}
// (not inlined: where only one of two is, the compiler takes them for mismatched)
[[gnu::noinline]] void *operator new(std::size_t size) {
    void *const found = given(size);
    if (found == nullptr) {
        std::abort();
    }
    return found;
}
[[gnu::noinline]] void *operator new(std::size_t size, const std::nothrow_t &) noexcept { return given(size); }
[[gnu::noinline]] void operator delete(void *there) noexcept {
    blocks -= there != nullptr;
    std::free(there);
}
[[gnu::noinline]] void operator delete(void *there, std::size_t) noexcept { operator delete(there); }

using large = std::array<std::uint64_t, 2>;

static int number_in(const std::unique_ptr<int> &it) { return *it; }

// A push that listens, and gets no memory, ends the listening: another gets the place, and none is called any more.
static void a_refused_push_ends_the_listening() {
    flatpq::task_queue<large> queue(flatpq::options().with_most_items(1));
    auto one = *queue.listen_room(), other = *queue.listen_room();
    auto member = *queue.join();
    int calls = 0;
    const auto bell = [&calls] { ++calls; };
    CHECK(queue.push(1u, large{}) && one.push_or_listen(2u, large{}).error() == code::full && other.push_or_listen(3u, large{}).error() == code::full);
    CHECK(member.push_or_listen(4u, large{}, bell).error() == code::full);
    CHECK(queue.pop() && is_readable(one.fd(), 0) && !is_readable(other.fd(), 0));
    left_to_give = 0;
    CHECK(member.push_or_listen(4u, large{}, bell).error() == code::no_memory && one.push_or_listen(2u, large{}).error() == code::no_memory);
    left_to_give = SIZE_MAX;
    CHECK(is_readable(one.fd(), 0) && is_readable(other.fd(), 0) && other.push_or_listen(3u, large{}) && queue.pop() && calls == 0);
}

int main() {
    auto queue = *flatpq::task_queue<large>::open();
    const std::size_t before = blocks;
    left_to_give = 1;
    CHECK(queue.push(1u, large{7, 8}) && blocks == before + 1 && queue.push(2u, large{}).error() == code::no_memory && blocks == before + 1);
    CHECK(queue.pop()->payload[1] == 8 && blocks == before && queue.pop().error() == code::empty);
    left_to_give = SIZE_MAX;
    auto owners = *flatpq::task_queue<std::unique_ptr<int>>::open();
    auto payload = std::make_unique<int>(7);
    left_to_give = 0;
    CHECK(owners.push(1u, std::move(payload)).error() == code::no_memory && *payload == 7);
    left_to_give = SIZE_MAX;
    // A batch ends at the first that gets none.
    std::vector<flatpq::task<std::unique_ptr<int>>> batch;
    for (int i = 0; i < 100; ++i) {
        batch.emplace_back(1u, std::make_unique<int>(i));
    }
    left_to_give = 70;
    const auto done = owners.push_many(batch);
    left_to_give = SIZE_MAX;
    CHECK(done.error == code::no_memory && done.count == 70 && done.number != 0 && !batch[69].payload && *batch[70].payload == 70 && *batch[99].payload == 99);
    CHECK(*owners.clear() == 70);
    a_refused_push_ends_the_listening();
    auto numbers = *flatpq::task_queue<double>::open();
    left_to_give = 0;
    CHECK(numbers.push(1u, 0.5) && numbers.pop()->payload == 0.5);
    left_to_give = SIZE_MAX;
    // As oneTBB's, the adapter throws.
    flatpq::concurrent_priority_queue<std::unique_ptr<int>, flatpq::by<&number_in>> thrown;
    bool threw = false;
    left_to_give = 0;
    try {
        thrown.push(std::move(payload));
    } catch (const std::bad_alloc &) {
        threw = true;
    }
    left_to_give = SIZE_MAX;
    CHECK(threw && *payload == 7 && thrown.empty());
    return 0;
}
