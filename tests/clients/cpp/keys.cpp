// Keys: each kind comes out in its order, equal ones in the order of their pushes, and each as it was pushed. The test is also built with
// -fno-exceptions.
#include "../check.h"
#include "flatpq_tasks.hpp"

#include <cmath>
#include <limits>
#include <map>
#include <type_traits>
#include <vector>

using namespace std::chrono_literals;
using clock_of = std::chrono::steady_clock;
using flatpq::code;
using flatpq::key_order;

template <class Key, class T = std::size_t> static auto opened() { return *flatpq::task_queue<T, Key>::open(); }

// Keys in their order, all of them different: their numbers are so too. A queue shows them so, whatever the order of their pushes, and a
// bound takes out what is not above it.
template <class Key> static void are_ordered(const std::vector<Key> &keys) {
    auto queue = opened<Key>();
    // Each second one from the last on, and then the others.
    for (std::size_t odd = 0; odd < 2; ++odd) {
        for (std::size_t at = keys.size(); at > 0; --at) {
            CHECK(at % 2 != odd || queue.push(keys[at - 1], at - 1));
        }
    }
    for (std::size_t at = 0; at < keys.size(); ++at) {
        const std::uint64_t number = key_order<Key>::number(keys[at]);
        CHECK(key_order<Key>::number(key_order<Key>::key(number)) == number);
        CHECK(at == 0 || key_order<Key>::number(keys[at - 1]) < number);
        CHECK(*queue.peek() == keys[at]);
        if (at % 2 != 0) {
            const auto later = queue.pop_due(keys[at - 1]);
            CHECK(later.error() == code::not_due && later.first() == keys[at]);
        }
        const auto first = at % 2 == 0 ? queue.pop() : queue.pop_due(keys[at]);
        CHECK(first->priority == keys[at] && first->payload == at && !first.first());
    }
    CHECK(queue.pop().error() == code::empty);
}

template <class Whole> static void integers_are_ordered() {
    using limits = std::numeric_limits<Whole>;
    std::vector<Whole> keys;
    if constexpr (limits::is_signed) {
        keys = {limits::min(), limits::min() + 1, -2, -1};
    }
    for (const int small : {0, 1, 2, 100}) {
        keys.push_back(static_cast<Whole>(small));
    }
    if constexpr (sizeof(Whole) == 8) {
        // These differ in the lower half alone, in the upper half alone, and in both.
        for (const std::uint64_t great : {0xFFFFFFFFull, 0x100000000ull, 0x100000005ull, 0x200000005ull, 0x7FFFFFFF00000005ull}) {
            keys.push_back(static_cast<Whole>(great));
        }
    }
    keys.push_back(limits::max() - 1);
    keys.push_back(limits::max());
    are_ordered(keys);
}

template <class Real> static void reals_are_ordered() {
    using limits = std::numeric_limits<Real>;
    const Real infinity = limits::infinity(), nan = limits::quiet_NaN();
    const std::vector<Real> above = {limits::denorm_min(), limits::min(), Real(0.5), 1, std::nextafter(Real(1), Real(2)), limits::max(), infinity};
    std::vector<Real> keys;
    for (std::size_t at = above.size(); at > 0; --at) {
        keys.push_back(-above[at - 1]);
    }
    keys.push_back(0);
    keys.insert(keys.end(), above.begin(), above.end());
    are_ordered(keys);
    // Both zeros are one key, and so are all NaNs: the last.
    CHECK(key_order<Real>::number(Real(-0.0)) == key_order<Real>::number(0));
    for (const Real other : {-nan, limits::signaling_NaN(), std::copysign(limits::signaling_NaN(), Real(-1))}) {
        CHECK(key_order<Real>::number(other) == key_order<Real>::number(nan) && key_order<Real>::number(infinity) < key_order<Real>::number(nan));
    }
    CHECK(key_order<Real>::number(nan) < UINT64_MAX && std::isnan(key_order<Real>::key(key_order<Real>::number(-nan))));
    auto queue = opened<Real, char>();
    CHECK(queue.push(-nan, 'c') && queue.push(nan, 'd') && queue.push(Real(0.0), 'a') && queue.push(Real(-0.0), 'b'));
    for (const char expected : {'a', 'b', 'c', 'd'}) {
        CHECK(queue.pop()->payload == expected);
    }
}

template <class Duration> static void times_are_ordered(const std::vector<Duration> &since) {
    are_ordered(since);
    std::vector<std::chrono::time_point<clock_of, Duration>> moments;
    for (const auto it : since) {
        moments.emplace_back(it);
    }
    are_ordered(moments);
}

namespace {

enum class urgency : std::int8_t { high = -1, middle, low };

/// A key of the program's own: the greatest level comes first, and of one level the smallest time.
struct severity {
    std::uint32_t level, since;
    friend bool operator==(const severity &a, const severity &b) { return a.level == b.level && a.since == b.since; }
};

/// One that is not made of nothing.
struct rank {
    explicit rank(std::uint64_t from) noexcept : number(from) {}
    std::uint64_t number;
};

/// An item of the program's own, for batches.
struct job {
    std::uint8_t priority;
    std::uint16_t value;
};

/// A time of the program's own: milliseconds since the clock's zero, from 1000 on.
struct tick {
    std::uint64_t number;
};

} // namespace

template <> struct flatpq::key_order<severity> {
    static std::uint64_t number(severity key) noexcept { return std::uint64_t{~key.level} << 32 | key.since; }
    static severity key(std::uint64_t number) noexcept {
        return {~static_cast<std::uint32_t>(number >> 32), static_cast<std::uint32_t>(number)};
    }
};

template <> struct flatpq::key_order<rank> {
    static std::uint64_t number(rank key) noexcept { return key.number; }
    static rank key(std::uint64_t number) noexcept { return rank(number); }
};

template <> struct flatpq::key_order<tick> {
    static constexpr std::uint64_t time_zero = 1000, time_unit = 1000000;
    static std::uint64_t number(tick key) noexcept { return key.number; }
    static tick key(std::uint64_t number) noexcept { return {number}; }
};

static_assert(flatpq::detail::are_times<tick> && flatpq::detail::are_times<clock_of::time_point>);
static_assert(!flatpq::detail::are_times<std::uint64_t> && !flatpq::detail::are_times<std::chrono::system_clock::time_point>);
static_assert(!flatpq::detail::are_times<std::chrono::time_point<clock_of, std::chrono::duration<double>>>);

// A signed number is refused where keys are unsigned, by each call that takes a key.
constexpr auto pushes = [](auto &to, auto number) -> decltype(to.push(number, 1u)) { return to.push(number, 1u); };
constexpr auto pops_due = [](auto &to, auto number) -> decltype(to.pop_due(number)) { return to.pop_due(number); };
constexpr auto pops_many = [](auto &to, auto number) -> decltype(to.pop_due_many(number, 1)) { return to.pop_due_many(number, 1); };
constexpr auto drains = [](auto &to, auto number) -> decltype(to.drain(number)) { return to.drain(number); };
constexpr auto listens = [](auto &to, auto number) -> decltype(to.take_or_listen(number)) { return to.take_or_listen(number); };
constexpr auto calls_back = [](auto &to, auto number) -> decltype(to.take_or_listen(number, to)) { return to.take_or_listen(number, to); };
template <class To, class Number, class... Call> constexpr bool takes(const Call &...) { return (std::is_invocable_v<Call, To &, Number> && ...); }
template <class To, class Number, class... Call> constexpr bool refuses(const Call &...) {
    return !(std::is_invocable_v<Call, To &, Number> || ...);
}
static_assert(refuses<flatpq::queue<>, int>(pushes, pops_due, pops_many, drains, calls_back) && refuses<flatpq::listener<>, int>(listens));
static_assert(refuses<flatpq::queue<unsigned>, double>(pushes, pops_due, pops_many, drains));
static_assert(takes<flatpq::queue<>, unsigned>(pushes, pops_due, pops_many, drains) && takes<flatpq::listener<>, unsigned>(listens));
static_assert(takes<flatpq::queue<int>, int>(pushes, pops_due, pops_many, drains) && takes<flatpq::queue<double>, int>(pushes, pops_due, drains));

// Nor is one the key of a payload of a batch, nor of an item (signed_batch.cpp).
static_assert(!std::is_constructible_v<flatpq::task<char>, int, char> && std::is_constructible_v<flatpq::task<char>, unsigned, char>);
static_assert(std::is_constructible_v<flatpq::task<char, int>, int, char>);

// Keys that are not made of nothing will do, and a batch may have items of the program's own.
static void types_of_the_program_will_do() {
    auto ranks = *flatpq::queue<rank>::open();
    CHECK(ranks.push(rank(5), 6));
    const auto popped = ranks.pop();
    CHECK(popped->priority.number == 5 && popped->value == 6);
    auto queue = *flatpq::queue<>::open();
    const std::vector<job> jobs = {{7, 8}, {5, 6}};
    CHECK(queue.push_many(jobs).count == 2 && *queue.pop() == flatpq::item<>(5, 6) && *queue.pop() == flatpq::item<>(7, 8));
    const std::map<unsigned, unsigned> pairs = {{3, 4}, {1, 2}};
    CHECK(queue.push_many(pairs).count == 2 && *queue.pop() == flatpq::item<>(1, 2) && *queue.pop() == flatpq::item<>(3, 4));
    CHECK(queue.push_many({{7, 8}, {5, 6}}, 1h).count == 2 && queue.push_many({}).count == 0 && *queue.pop() == flatpq::item<>(5, 6));
}

// Nothing comes out before its time, what is due at one time comes in the order of its pushes, and what stays is shown exactly.
static void what_is_due_comes_out_in_time() {
    auto queue = opened<clock_of::time_point, int>();
    const auto start = clock_of::now(), soon = start + 20000001ns, much_later = start + 365 * 24h;
    CHECK(queue.push(soon, 1) && queue.push(soon + 1ns, 3) && queue.push(soon, 2));
    CHECK(queue.push(clock_of::time_point::min(), -2) && queue.push(clock_of::time_point(-1ns), -1) && queue.push(start, 0));
    CHECK(queue.push(clock_of::time_point::max(), 5) && queue.push(much_later, 4));
    for (const int expected : {-2, -1, 0, 1, 2, 3}) {
        const auto due = queue.take_due(start + 1h);
        CHECK(due->payload == expected && clock_of::now() >= due->priority);
    }
    const auto later = queue.take_due(5ms);
    CHECK(later.error() == code::not_due && later.first() == much_later && queue.pop()->payload == 4);
    CHECK(queue.take_due(flatpq::now).first() == clock_of::time_point::max());
}

// The library's clock is steady_clock, and coarser times are due at their beginnings.
static void times_have_units() {
    const auto before = clock_of::now();
    const std::uint64_t now = pq_now();
    CHECK(clock_of::time_point(std::chrono::nanoseconds(now)) >= before && clock_of::time_point(std::chrono::nanoseconds(now)) <= clock_of::now());
    const auto soon = [](auto far) { return std::chrono::ceil<std::chrono::milliseconds>(clock_of::now() + far); };
    auto moments = opened<std::chrono::time_point<clock_of, std::chrono::milliseconds>, int>();
    const auto later = soon(1h), sooner = soon(10ms);
    CHECK(moments.push(later, 1) && moments.take_due(5ms).first() == later && moments.push(sooner, 2));
    CHECK(moments.take_due()->payload == 2 && clock_of::now() >= sooner);
    auto ticks = opened<tick, int>();
    const auto number = [](auto time) { return tick{1000 + static_cast<std::uint64_t>(time.time_since_epoch().count())}; };
    const auto next = soon(20ms);
    CHECK(ticks.push(number(next), 2) && ticks.push(number(soon(1h)), 3) && ticks.push({7}, 1) && ticks.take_due()->payload == 1);
    CHECK(ticks.take_due()->payload == 2 && clock_of::now() >= next && ticks.take_due(5ms).error() == code::not_due);
}

int main() {
    integers_are_ordered<std::uint64_t>();
    integers_are_ordered<std::int64_t>();
    integers_are_ordered<long long>();
    integers_are_ordered<std::uint32_t>();
    integers_are_ordered<std::int32_t>();
    integers_are_ordered<std::int16_t>();
    integers_are_ordered<std::uint8_t>();
    integers_are_ordered<signed char>();
    are_ordered<bool>({false, true});
    are_ordered<urgency>({urgency::high, urgency::middle, urgency::low});
    reals_are_ordered<double>();
    reals_are_ordered<float>();
    times_are_ordered<std::chrono::nanoseconds>({std::chrono::nanoseconds::min(), -1h, -1ns, 0ns, 1ns, 4294967296ns, 8589934592ns, 1h});
    times_are_ordered<std::chrono::hours>({std::chrono::hours::min(), -1h, 0h, 1h, std::chrono::hours::max()});
    times_are_ordered<std::chrono::duration<double>>({std::chrono::duration<double>(-0.5), 0s, std::chrono::duration<double>(0.25)});
    are_ordered<severity>({{UINT32_MAX, 0}, {UINT32_MAX, UINT32_MAX}, {1, 0}, {1, 2}, {0, 0}, {0, UINT32_MAX}});
    types_of_the_program_will_do();
    what_is_due_comes_out_in_time();
    times_have_units();
    return 0;
}
