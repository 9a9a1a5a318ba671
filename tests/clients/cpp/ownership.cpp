// Queues, members, listeners and journals are moved and never copied, end in any order, and each refuses once it was moved from.
#include "../check.h"
#include "flatpq_tasks.hpp"

#include <optional>
#include <string>
#include <thread>
#include <type_traits>
#include <utility>
#include <vector>

using namespace std::chrono_literals;
using flatpq::code;
using flatpq::item;

template <class... T>
constexpr bool are_move_only = ((std::is_nothrow_move_constructible_v<T> && std::is_nothrow_move_assignable_v<T> &&
                                 !std::is_copy_constructible_v<T> && !std::is_copy_assignable_v<T>) && ...);
static_assert(are_move_only<flatpq::queue<>, flatpq::member<>, flatpq::listener<>, flatpq::journal<>>);
static_assert(are_move_only<flatpq::task_queue<std::string>, flatpq::task_member<std::string>, flatpq::task_journal<std::string>>);
static_assert(std::is_trivially_copyable_v<item<>> && sizeof(item<>) == 16 && sizeof(flatpq::member<>) == sizeof(void *));
static_assert(!std::is_convertible_v<flatpq::queue<>, flatpq::queue<int>> && !std::is_convertible_v<item<int>, item<>>);

#if __cplusplus >= 202002L
// What a loop reads is a range of the standard library.
#include <ranges>
template <class... T> constexpr bool are_ranges = (std::ranges::input_range<T> && ...);
static_assert(are_ranges<const flatpq::journal<>, const flatpq::task_journal<std::string>>);
static_assert(are_ranges<decltype(std::declval<flatpq::queue<> &>().drain()), decltype(std::declval<flatpq::journal<> &>().left())>);
#endif

// What goes on taking is of a queue, a member or a journal that stays, and no temporary.
template <class From, class = void> constexpr bool drains = false;
template <class From> constexpr bool drains<From, std::void_t<decltype(std::declval<From>().drain())>> = true;
template <class From, class = void> constexpr bool drains_due = false;
template <class From> constexpr bool drains_due<From, std::void_t<decltype(std::declval<From>().drain(1u))>> = true;
template <class From, class = void> constexpr bool has_left = false;
template <class From> constexpr bool has_left<From, std::void_t<decltype(std::declval<From>().left())>> = true;
static_assert(drains<flatpq::queue<> &> && drains_due<flatpq::queue<> &> && drains<flatpq::member<> &> && has_left<flatpq::journal<> &>);
static_assert(!drains<flatpq::queue<>> && !drains_due<flatpq::queue<>> && !drains<flatpq::member<>> && !has_left<flatpq::journal<>>);

static flatpq::queue<> opened_for(std::uint32_t members) { return *flatpq::queue<>::open({members}); }

// Each call of one that was moved from, or closed, by these.
template <class By> static void calls_are_refused(By &it, code why) {
    const auto bell = [] {};
    CHECK(it.push(1u, 2).error() == why && it.pop().error() == why && it.peek().error() == why && it.pop_due(1u).error() == why);
    CHECK(it.take().error() == why && it.clear().error() == why && it.pop_due_many(1u, 5).error() == why && it.archive(0).error() == why);
    item<> items[] = {{1, 2}};
    const auto batch = it.push_many(items);
    CHECK(batch.error == why && batch.count == 0 && batch.number == 0);
    CHECK(it.push_many(std::vector<item<>>()) && it.pop_due_many(1u, 0)->empty());
    CHECK(it.take_or_listen(bell).error() == why && !it.unlisten() && it.place() == UINT32_MAX);
}

static void what_was_moved_from_refuses() {
    auto queue = opened_for(2);
    flatpq::queue<> moved(std::move(queue));
    calls_are_refused(queue, code::no_member);
    CHECK(queue.join().error() == code::no_member && queue.listen().error() == code::no_member && queue.close().error() == code::no_member);
    CHECK(queue.shut() == code::no_member && !queue.is_shut());
    queue.leave();
    auto first = *moved.join(), second = *moved.join();
    flatpq::member<> taken(std::move(first));
    calls_are_refused(first, code::no_member);
    CHECK(taken.push(1u, 2) && moved.join(flatpq::now).error() == code::all_joined);
    // The one that is assigned over is given back.
    second = std::move(taken);
    auto third = *moved.join(flatpq::now);
    CHECK(taken.pop().error() == code::no_member && *second.pop() == (item<>{1, 2}) && third.place() != second.place());
    auto &same = second;
    second = std::move(same);
    CHECK(second.push(3u, 4));
    second.give_back();
    second.give_back();
    calls_are_refused(second, code::no_member);
    third.give_back();
    auto journal = *moved.close();
    calls_are_refused(moved, code::closed);
    CHECK(moved.join().error() == code::closed && moved.close().error() == code::closed && moved.shut() == code::closed);
    flatpq::journal<> later(std::move(journal));
    CHECK(journal.size() == 0 && journal.before() == 0 && !journal.read(0) && journal.take().error() == code::empty && later.size() == 3);
    journal = std::move(later);
    CHECK(*journal.take() == (item<>{3, 4}) && later.size() == 0);
}

// A member that is assigned over goes back to its own queue, and the other calls its own.
static void an_assignment_across_two_queues() {
    auto first = opened_for(1), second = opened_for(1);
    auto one = *first.join(), other = *second.join();
    CHECK(one.push(1u, 1) && other.push(2u, 2));
    one = std::move(other);
    CHECK(*one.pop() == (item<>{2, 2}) && second.join(flatpq::now).error() == code::all_joined);
    CHECK(first.close()->size() == 1 && second.close().error() == code::members_left);
    one.give_back();
    CHECK(second.close()->size() == 2);
    first = opened_for(2);
    CHECK(first.join(flatpq::now) && first.push(3u, 3));
    CHECK(first.close()->size() == 1);
}

// Nothing is lost, whichever ends first: the tools that look for lost memory see it.
static void they_end_in_any_order() {
    std::optional<flatpq::member<>> last;
    std::optional<flatpq::listener<>> listener;
    {
        auto queue = opened_for(4);
        auto first = *queue.join();
        last.emplace(*queue.join());
        listener.emplace(*queue.listen());
        CHECK(first.push(1u, 1));
    }
    CHECK(last->push(2u, 2) && listener->take_or_listen());
    last.reset();
    listener.reset();
    auto queue = opened_for(1), other = opened_for(1);
    auto member = *queue.join();
    CHECK(queue.close().error() == code::members_left);
    auto journal = *other.close();
    queue = std::move(other);
    CHECK(member.push(1u, 1));
    calls_are_refused(queue, code::closed);
}

// A temporary result gives its value to the loop.
static void loops_go_through_results() {
    auto queue = opened_for(1);
    item<> items[] = {{1, 2}, {3, 4}, {5, 6}};
    CHECK(queue.push_many(items));
    std::uint64_t sum = 0;
    for (const auto &entry : queue.archive(0).value()) {
        sum += entry.number;
    }
    for (auto &it : queue.pop_due_many(3u, 64).value()) {
        sum += it.value;
    }
    for (auto &it : *queue.pop_due_many(5u, 64)) {
        sum += it.value;
    }
    for (const auto &entry : *queue.close()) {
        sum += entry.number;
    }
    CHECK(sum == 6 + 6 + 6 + 21);
}

static void answers_have_numbers() {
    auto queue = opened_for(2);
    auto member = *queue.join();
    CHECK(*member.push(5u, 6) == 1);
    const auto popped = member.pop(), none = queue.pop();
    CHECK(*popped == (item<>{5, 6}) && popped.number() == 2);
    CHECK(none.error() == code::empty && none.number() == 3 && !none.first() && queue.peek().error() == code::empty);
    CHECK(*member.push(7u, 8) == 4 && queue.peek()->value == 8 && member.pop().number() == 5);
}

static void a_joining_waits() {
    auto queue = opened_for(1);
    auto only = *queue.join();
    CHECK(queue.join(flatpq::now).error() == code::all_joined && queue.join(5ms).error() == code::all_joined);
    CHECK(queue.listen(5ms).error() == code::all_joined && queue.pop_due(1u, flatpq::now).error() == code::timed_out);
    std::thread ending([gone = std::move(only)]() mutable {
        std::this_thread::sleep_for(10ms);
        gone.give_back();
    });
    CHECK(queue.join());
    ending.join();
    // A thread's own member may be taken over, or is given back.
    CHECK(queue.push(1u, 2) && queue.place() != UINT32_MAX);
    { const auto taken = *queue.join(); }
    CHECK(queue.push(1u, 2));
    queue.leave();
    CHECK(queue.place() == UINT32_MAX);
}

// A temporary result gives its first item away. A negative number of an enumeration is no unsigned key, nor is one beside a braced payload.
enum urgency { urgent = -1, calm = 0 };
enum class level : unsigned { low, high };
using braced = std::pair<int, int>;
static_assert(!std::is_constructible_v<flatpq::task<braced>, int, braced> && std::is_constructible_v<flatpq::task<braced>, unsigned, braced>);
static_assert(flatpq::detail::is_signed_for<unsigned, urgency> && !flatpq::detail::is_signed_for<unsigned, level>);

void first_of_a_temporary_is_a_value() {
    flatpq::queue<> queue;
    CHECK(queue.push(9u, 1));
    const auto &first = queue.pop_due(5u).first();
    CHECK(first && first->priority == 9);
    static_assert(!std::is_copy_constructible_v<decltype(queue.drain())>);
}

int main() {
    first_of_a_temporary_is_a_value();
    what_was_moved_from_refuses();
    an_assignment_across_two_queues();
    they_end_in_any_order();
    loops_go_through_results();
    answers_have_numbers();
    a_joining_waits();
    return 0;
}
