// The members of oneTBB's concurrent_priority_queue: each on its happy path; which item comes first; what throws loses no item; two threads.
#include "../check.h"
#include "flatpq_tbb.hpp"

#include <atomic>
#include <chrono>
#include <cstdint>
#include <limits>
#include <memory>
#include <queue>
#include <string>
#include <thread>
#include <type_traits>
#include <vector>

using flatpq::by;
using flatpq::code;
template <class T, class Compare = std::less<T>> using queue_of = flatpq::concurrent_priority_queue<T, Compare>;

namespace {

/// Ordered by its members.
struct job {
    int urgency = 0;
    std::string name{};
    job() = default;
    job(int how, std::string what) : urgency(how), name(std::move(what)) {}
    [[nodiscard]] int late() const { return -urgency; }
};

enum class color : std::int8_t { red = -1, green, blue };

std::size_t length_of(const job &it) { return it.name.size(); }

} // namespace

// All items, in the order in which they come out.
template <class Queue> static auto all_of(Queue &&queue) {
    std::vector<typename std::decay_t<Queue>::value_type> all;
    for (typename std::decay_t<Queue>::value_type it{}; queue.try_pop(it);) {
        all.push_back(std::move(it));
    }
    CHECK(queue.empty() && queue.size() == 0);
    return all;
}
template <class Queue> static std::string names_of(Queue &&queue) {
    std::string names;
    for (const auto &it : all_of(queue)) {
        names += it.name;
    }
    return names;
}

using numbers = std::vector<int>;

static void each_constructor() {
    const numbers three = {3, -1, 2};
    const std::less<int> less;
    CHECK(queue_of<int>().empty() && queue_of<int>(less).empty() && queue_of<int>(42).empty() && queue_of<int>(42, less).empty());
    CHECK((all_of(queue_of<int>(three.begin(), three.end())) == numbers{3, 2, -1}));
    CHECK((all_of(queue_of<int, std::greater<>>(three.begin(), three.end(), std::greater<>())) == numbers{-1, 2, 3}));
    CHECK((all_of(queue_of<int>({3, -1, 2})) == numbers{3, 2, -1}));
    CHECK((all_of(queue_of<int, std::greater<int>>({3, -1, 2}, std::greater<int>())) == numbers{-1, 2, 3}));
    flatpq::concurrent_priority_queue deduced(three.begin(), three.end()), listed{3, -1};
    flatpq::concurrent_priority_queue compared(three.begin(), three.end(), std::greater<>());
    static_assert(std::is_same_v<decltype(deduced), queue_of<int>> && std::is_same_v<decltype(listed), queue_of<int>>);
    static_assert(std::is_same_v<decltype(compared), queue_of<int, std::greater<>>>);
    CHECK((deduced.size() == 3 && listed.size() == 2 && all_of(compared) == numbers{-1, 2, 3}));
    auto moved = std::move(deduced);
    CHECK(moved.size() == 3);
    deduced = std::move(moved);
    CHECK((all_of(deduced) == numbers{3, 2, -1}));
    static_assert(!std::is_copy_constructible_v<queue_of<int>> && !std::is_copy_assignable_v<queue_of<int>>);
}

static void each_call() {
    queue_of<job, by<&job::urgency>> queue, other;
    const job one(1, "a");
    job two(2, std::string(40, 'b'));
    queue.push(one);
    queue.push(std::move(two));
    queue.emplace(3, "c");
    CHECK(one.name == "a" && two.name.empty() && queue.size() == 3 && !queue.empty());
    job first;
    CHECK(queue.try_pop(first) && first.urgency == 3 && first.name == "c" && queue.size() == 2);
    other.emplace(9, "d");
    queue.swap(other);
    CHECK(queue.size() == 1 && other.size() == 2);
    swap(queue, other);
    queue.swap(queue);
    CHECK(queue.size() == 2 && names_of(other) == "d" && queue.try_pop(first) && first.name == std::string(40, 'b'));
    queue.clear();
    CHECK(queue.empty() && queue.size() == 0 && !queue.try_pop(first) && first.urgency == 2);
    const std::vector<job> two_more = {{4, "e"}, {5, "f"}};
    queue.push(one);
    queue.assign(two_more.begin(), two_more.end());
    CHECK(names_of(queue) == "fe");
    queue.assign({{6, "g"}, {7, "h"}});
    CHECK(names_of(queue) == "hg");
    queue.push(one);
    CHECK(&(queue = {{8, "i"}}) == &queue && names_of(queue) == "i");
}

// The order is that of the same Compare in std::priority_queue, and items of equal keys come out as they were pushed.
template <class T, class Compare> static void is_ordered(std::vector<T> items) {
    queue_of<T, Compare> queue(items.begin(), items.end());
    std::priority_queue<T, std::vector<T>, Compare> expected(Compare(), std::move(items));
    for (T it{}; queue.try_pop(it); expected.pop()) {
        CHECK(!Compare()(it, expected.top()) && !Compare()(expected.top(), it));
    }
    CHECK(expected.empty());
}

static void the_order_is_that_of_compare() {
    using time = std::chrono::steady_clock::time_point;
    const auto after = [](int ticks) { return time(time::duration(ticks)); };
    constexpr auto most = std::numeric_limits<std::int64_t>::max(), fewest = std::numeric_limits<std::int64_t>::min();
    is_ordered<std::int64_t, std::less<>>({0, most, fewest, -1, 1});
    is_ordered<std::int64_t, std::greater<std::int64_t>>({0, most, fewest, -1, 1});
    is_ordered<std::uint64_t, std::less<std::uint64_t>>({0, UINT64_MAX, 1, UINT64_MAX - 1});
    is_ordered<std::uint64_t, std::greater<>>({1, UINT64_MAX, 0, UINT64_MAX - 1});
    is_ordered<double, std::less<>>({0.5, -0.5, 1e300, -1e300, 0});
    is_ordered<color, std::less<color>>({color::green, color::red, color::blue});
    is_ordered<time, std::greater<>>({after(3), after(-3), after(0)});
    const std::vector<job> jobs = {{1, "aaa"}, {3, "b"}, {2, "cc"}};
    is_ordered<job, by<&job::urgency>>(jobs);
    is_ordered<job, by<&job::urgency, std::greater<>>>(jobs);
    is_ordered<job, by<&job::late>>(jobs);
    is_ordered<job, by<&length_of, std::greater<std::size_t>>>(jobs);
    is_ordered<std::pair<int, int>, by<&std::pair<int, int>::first>>({{1, 2}, {2, 1}, {-3, 3}});
    CHECK(names_of(queue_of<job, by<&job::urgency>>({{1, "a"}, {2, "b"}, {1, "c"}, {2, "d"}})) == "bdac");
}

namespace {

/// An item that throws where it is asked to, and is counted until it is dropped.
struct touchy {
    static inline int live = 0, copies_left = -1;
    static inline bool throws_for_its_key = false;
    int number;

    explicit touchy(int it) : number(it) {
        if (it < 0) {
            throw 7;
        }
        ++live;
    }
    touchy(const touchy &other) : number(other.number) {
        if (copies_left == 0) {
            throw 7;
        }
        copies_left -= copies_left > 0;
        ++live;
    }
    touchy(touchy &&other) noexcept : number(std::exchange(other.number, -1)) { ++live; }
    touchy &operator=(const touchy &) { throw 7; }
    ~touchy() { --live; }
    [[nodiscard]] int key() const {
        if (throws_for_its_key) {
            throw 7;
        }
        return number;
    }
};
static_assert(!std::is_nothrow_move_assignable_v<touchy>);

} // namespace

using touchies = queue_of<touchy, by<&touchy::key>>;

template <class Call> static void throws(Call call) {
    try {
        call();
    } catch (int) {
        return;
    }
    CHECK(false);
}

static void an_exception_loses_no_item() {
    {
        touchies queue;
        queue.emplace(1);
        touchy two(2);
        touchy::copies_left = 0;
        throws([&] { queue.push(two); });
        throws([&] { queue.emplace(-1); });
        touchy::throws_for_its_key = true;
        throws([&] { queue.push(std::move(two)); });
        touchy::throws_for_its_key = false;
        CHECK(two.number == 2 && queue.size() == 1 && touchy::live == 2);
        const touchy more[] = {touchy(3), touchy(4), touchy(5)};
        touchy::copies_left = 2;
        throws([&] { queue.assign(std::begin(more), std::end(more)); });
        touchy::copies_left = 2;
        throws([&] { touchies(std::begin(more), std::end(more)); });
        touchy::copies_left = -1;
        CHECK(queue.size() == 1 && touchy::live == 5);
        queue.push(two);
        queue.push(std::move(two));
        touchy first(9);
        CHECK(queue.try_pop(first) && first.number == 2 && queue.try_pop(first) && first.number == 2 && queue.try_pop(first) && first.number == 1);
        CHECK(!queue.try_pop(first) && first.number == 1 && touchy::live == 5);
        queue.assign(std::begin(more), std::end(more));
    }
    CHECK(touchy::live == 0);
}

static void a_queue_that_was_moved_from_refuses() {
    touchies queue, next(std::move(queue));
    touchy one(1), first(9);
    const auto is_refused = [](auto call) {
        try {
            call();
        } catch (const flatpq::error &refused) {
            return refused.code() == code::no_member;
        }
        return false;
    };
    CHECK(is_refused([&] { queue.push(std::move(one)); }) && one.number == 1 && is_refused([&] { queue.try_pop(first); }) && first.number == 9);
    CHECK(is_refused([&] { static_cast<void>(queue.size()); }) && is_refused([&] { queue.clear(); }));
    queue = std::move(next);
    queue.push(std::move(one));
    CHECK(queue.try_pop(first) && first.number == 1);
}

static int number_in(const std::unique_ptr<int> &it) { return *it; }

// Each item of two threads comes out once; what one thread takes while none pushes comes in order.
static void two_threads() {
    const int each = static_cast<int>(requests(20000));
    queue_of<std::unique_ptr<int>, by<&number_in>> queue;
    std::vector<std::atomic<int>> seen(static_cast<std::size_t>(2 * each));
    std::atomic<int> pushing{2};
    const auto work = [&](int from) {
        std::unique_ptr<int> it;
        for (int i = 0; i < each; ++i) {
            queue.emplace(std::make_unique<int>(2 * i + from));
            if (i % 3 == 0 && queue.try_pop(it)) {
                ++seen[static_cast<std::size_t>(*it)];
            }
        }
        for (--pushing; pushing != 0;) {
            std::this_thread::yield();
        }
        for (int last = 2 * each; queue.try_pop(it); last = *it) {
            CHECK(*it < last);
            ++seen[static_cast<std::size_t>(*it)];
        }
    };
    std::thread other(work, 1);
    work(0);
    other.join();
    CHECK(queue.empty());
    for (const auto &count : seen) {
        CHECK(count == 1);
    }
}

int main() {
    each_constructor();
    each_call();
    the_order_is_that_of_compare();
    an_exception_loses_no_item();
    a_queue_that_was_moved_from_refuses();
    two_threads();
    return 0;
}
