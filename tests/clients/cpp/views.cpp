// What the standard library's views make of a drain: a temporary or a named one, from where it stands. They take no item that nobody reads.
#include "../check.h"
#include "flatpq_tasks.hpp"

#include <concepts>
#include <memory>
#include <ranges>
#include <vector>

namespace views = std::views;
using tasks = flatpq::task_queue<std::unique_ptr<int>, int>;

static_assert(std::movable<decltype(std::declval<tasks &>().drain())> && !std::copyable<decltype(std::declval<tasks &>().drain())>);

static tasks with_keys(int count) {
    tasks queue;
    for (int key = 0; key < count; ++key) {
        CHECK(queue.push(key, std::make_unique<int>(key)));
    }
    return queue;
}

template <class Range> static std::vector<int> keys_of(Range &&range) {
    std::vector<int> keys;
    for (auto &it : range) {
        CHECK(*it.payload == it.priority);
        keys.push_back(it.priority);
    }
    return keys;
}

static void a_temporary_is_taken() {
    auto queue = with_keys(6);
    CHECK((keys_of(queue.drain() | views::take(3)) == std::vector{0, 1, 2}) && *queue.size() == 3);
    CHECK((keys_of(queue.drain(4) | views::take(9)) == std::vector{3, 4}) && *queue.size() == 1);
    auto journal = *queue.close();
    CHECK((keys_of(journal.left() | views::take(3)) == std::vector{5}));
}

static void a_named_one_goes_on() {
    auto queue = with_keys(7);
    auto all = queue.drain();
    CHECK((keys_of(all | views::take(2)) == std::vector{0, 1}) && *queue.size() == 5);
    for (auto &it : all | views::take(2)) {
        CHECK(it.priority == 2);
        break;
    }
    CHECK((keys_of(all | views::take(1)) == std::vector{3}) && *queue.size() == 3);
    auto moved = std::move(all) | views::take(2);
    CHECK((keys_of(moved) == std::vector{4, 5}) && *queue.size() == 1);
}

static void others_are_taken_too() {
    auto queue = with_keys(6);
    const auto is_even = [](const auto &it) { return it.priority % 2 == 0; };
    std::vector<int> even;
    for (const int key : queue.drain() | views::filter(is_even) | views::transform([](auto &it) { return it.priority; }) | views::take(2)) {
        even.push_back(key);
    }
    CHECK((even == std::vector{0, 2}));
}

// A batch of values may be made as it is read.
static void a_view_is_pushed() {
    flatpq::queue<> queue;
    const auto item_of = [](unsigned key) { return flatpq::item<>(key, 2 * key); };
    CHECK(queue.push_many(views::iota(1u, 101u) | views::transform(item_of)).count == 100 && *queue.size() == 100);
    CHECK(*queue.pop() == flatpq::item<>(1, 2) && *queue.pop() == flatpq::item<>(2, 4));
}

int main() {
    a_view_is_pushed();
    a_temporary_is_taken();
    a_named_one_goes_on();
    others_are_taken_too();
    return 0;
}
