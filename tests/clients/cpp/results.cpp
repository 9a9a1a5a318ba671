// Results are checked, deadlines have one form, openings are refused by their codes, and items have an order. The test is also built with
// -fno-exceptions.
#include "../check.h"
#include "flatpq_tasks.hpp"

#include <algorithm>
#include <cmath>
#include <cstring>
#include <string>
#include <sys/wait.h>
#include <thread>
#include <type_traits>
#include <unistd.h>
#include <vector>

using namespace std::chrono_literals;
using clock_of = std::chrono::steady_clock;
using flatpq::code;
using flatpq::item;
using flatpq::keeping;

// Whether a child that takes the value of nothing ends with the text of its code.
static bool ends_program(void (*takes)()) {
    int ends[2];
    CHECK(pipe(ends) == 0);
    const pid_t child = fork();
    if (child == 0) {
        CHECK(dup2(ends[1], 2) == 2);
        takes();
        std::_Exit(0);
    }
    close(ends[1]);
    std::string said;
    char part[256];
    for (ssize_t length; (length = read(ends[0], part, sizeof part)) > 0;) {
        said.append(part, static_cast<std::size_t>(length));
    }
    close(ends[0]);
    int status = 0;
    CHECK(child > 0 && waitpid(child, &status, 0) == child);
    return WIFSIGNALED(status) && WTERMSIG(status) == SIGABRT && said == std::string("flatpq: no value: ") + flatpq::text(code::gone) + "\n";
}

static void results_are_checked() {
    using of = flatpq::result<item<>>;
    of none(code::journal_full), some(item<>{1, 2});
    CHECK(some && some.has_value() && some.error() == code::ok && !none && none.error() == code::journal_full);
    CHECK(some.value() == (item<>{1, 2}) && *some == some.value() && some->value == 2 && *of(item<>{5, 6}) == (item<>{5, 6}));
    CHECK(std::as_const(none).value_or(item<>{3, 4}) == (item<>{3, 4}) && std::as_const(some).value_or(item<>{3, 4}) == (item<>{1, 2}));
    CHECK(std::move(none).value_or(item<>{3, 4}) == (item<>{3, 4}) && std::move(some).value_or(item<>{3, 4}) == (item<>{1, 2}));
    CHECK(ends_program([] { (void)*of(code::gone); }) && ends_program([] { (void)of(code::gone)->value; }));
#if defined(__cpp_exceptions)
    try {
        none.value();
        CHECK(false);
    } catch (const flatpq::error &why) {
        CHECK(why.code() == code::journal_full && std::strcmp(why.what(), flatpq::text(code::journal_full)) == 0);
    }
#else
    CHECK(ends_program([] { of(code::gone).value(); }));
#endif
}

#if defined(__cpp_exceptions)
// In without_exceptions.cpp, which is compiled with -fno-exceptions.
void takes_value_without_exceptions();

// Each file has the value() of its kind. This one calls it by its address, as inlined it would be its own.
static void files_of_both_kinds_are_one_program() {
    using of = flatpq::result<item<>>;
    item<> &(of::*volatile value)() & = &of::value;
    of none(code::gone);
    try {
        (none.*value)();
        CHECK(false);
    } catch (const flatpq::error &why) {
        CHECK(why.code() == code::gone);
    }
    CHECK(ends_program(takes_value_without_exceptions));
}
#else
static void files_of_both_kinds_are_one_program() {}
#endif

static void codes_are_those_of_the_header() {
    CHECK(std::strcmp(flatpq::text(code::closed), pq_code_text(PQ_CLOSED)) == 0 && *flatpq::text(code::closed) != 0);
    for (std::uint32_t i = 0; i < 64; ++i) {
        CHECK(flatpq::text(static_cast<code>(i)) == pq_code_text(i));
    }
}

static void openings_are_refused() {
    const auto opening = [](flatpq::options asked) { return flatpq::queue<>::open(asked).error(); };
    CHECK(opening({}) == code::ok && opening({1}) == code::ok && opening({0}) == code::ok && opening({65}) == code::bad_option);
    CHECK(opening({1, keeping::forgets, 16}) == code::ok && opening({1, keeping::forgets, 15}) == code::bad_option);
    CHECK(opening({1, keeping::refuses, 16777217}) == code::bad_option && opening({1, keeping::fills, 1048577}) == code::bad_option);
    CHECK(flatpq::task_queue<std::string>::open({65}).error() == code::bad_option);
    auto queue = *flatpq::queue<>::open(flatpq::options().with_keeping(keeping::fills, 1));
    CHECK(queue.push(1u, 2) && queue.pop().error() == code::journal_full);
#if defined(__cpp_exceptions)
    flatpq::queue<> four({4});
    CHECK(four.push(1u, 2));
    try {
        flatpq::task_queue<int> none({65});
        CHECK(false);
    } catch (const flatpq::error &why) {
        CHECK(why.code() == code::bad_option);
    }
#endif
}

/// Has a queue as a member, and as its base.
struct service {
    flatpq::queue<> queue;
    int number;
};
struct named : flatpq::queue<> {
    using flatpq::queue<>::basic_queue;
    int number = 7;
};

// Each sets its own option, and leaves the others.
constexpr auto all_options = flatpq::options{8}.with_keeping(keeping::refuses, 70000).with_most_items(9).with_tickets();
static_assert(all_options.members == 8 && all_options.keeping == keeping::refuses && all_options.entries == 70000);
static_assert(all_options.most_items == 9 && all_options.tickets && !all_options.with_tickets(false).tickets);
static_assert(all_options.with_members(3).members == 3 && all_options.with_members(3).tickets && all_options.with_members(3).most_items == 9);
static_assert(std::is_aggregate_v<flatpq::options> && !flatpq::options().tickets);

static_assert(!std::is_convertible_v<flatpq::options, flatpq::queue<>> && std::is_constructible_v<flatpq::queue<>, flatpq::options>);

static void queues_are_opened_in_others() {
    service one = {};
    flatpq::queue<> two[2] = {}, none = {};
    named by_name, of_one(flatpq::options{1});
    CHECK(one.queue.push(1u, 2) && one.number == 0 && two[1].push(1u, 2) && none.pop().error() == code::empty);
    CHECK(by_name.push(1u, 2) && by_name.number == 7 && of_one.push(3u, 4) && of_one.pop()->value == 4 && of_one.number == 7);
}

static_assert(!std::is_convertible_v<std::chrono::system_clock::time_point, flatpq::deadline> && !std::is_convertible_v<int, flatpq::deadline>);

static void deadlines_are_rounded_up() {
    using namespace std::chrono;
    using flatpq::deadline;
    const auto at = [](auto since) { return deadline(time_point<clock_of, decltype(since)>(since)).at(); };
    for (const auto since : {1ns, 999999999ns, 1000000001ns, 86400s + 7ns, nanoseconds(9000000000000000000)}) {
        CHECK(at(since) == static_cast<std::uint64_t>(since.count()));
    }
    CHECK(at(duration<double, std::nano>(1500.25)) == 1501 && at(duration<std::int64_t, std::pico>(1)) == 1 && at(1h) == 3600000000000);
    CHECK(at(0ns) == PQ_NOW && at(-1h) == PQ_NOW && at(nanoseconds::min()) == PQ_NOW && at(hours::min()) == PQ_NOW);
    CHECK(at(hours::max()) == PQ_FOREVER && at(duration<double>(1e300)) == PQ_FOREVER);
    CHECK(at(duration<double>(NAN)) == PQ_NOW && at(duration<double>(-1e300)) == PQ_NOW && at(duration<float>(0.5f)) == 500000000);
    CHECK(deadline().at() == PQ_FOREVER && deadline(flatpq::now).at() == PQ_NOW);
    CHECK(deadline(0s).at() == PQ_NOW && deadline(-1h).at() == PQ_NOW && deadline(hours::max()).at() == PQ_FOREVER);
    const std::uint64_t before = pq_now(), soon = deadline(1h).at();
    CHECK(soon >= before + 3600000000000 && soon <= pq_now() + 3600000000000 && deadline(duration<unsigned char>(1)).at() > before);
}

// Durations whose unit is no whole number of nanoseconds, nor a nanosecond one of units.
static void odd_units_are_rounded_up() {
    using namespace std::chrono;
    using odd = duration<std::int64_t, std::ratio<1, 2893202000>>;
    using smallest = duration<std::int64_t, std::ratio<1, INT64_MAX>>;
    const auto at = [](auto since) { return flatpq::deadline(time_point<clock_of, decltype(since)>(since)).at(); };
    CHECK(at(odd(7200 * 2893202000)) == 7200000000000 && at(odd(7200 * 2893202000 + 1)) == 7200000000001);
    CHECK(at(odd(1)) == 1 && at(odd(3)) == 2 && at(odd::max()) == 3187946101535522168 && at(odd::min()) == PQ_NOW && at(odd(0)) == PQ_NOW);
    CHECK(at(smallest(1)) == 1 && at(smallest::max()) == 1000000000 && at(smallest::min()) == PQ_NOW);
    CHECK(at(duration<std::uint64_t, std::pico>(UINT64_MAX)) == 18446744073709552);
    CHECK(at(duration<std::uint64_t, std::nano>(UINT64_MAX)) == PQ_FOREVER);
    CHECK(at(duration<std::int64_t, std::ratio<1, 3>>(1)) == 333333334);
    CHECK(at(duration<std::int64_t, std::ratio<1000000007>>(9)) == 9000000063000000000);
}

// None of these waits longer than it may, nor shorter.
static void waits_end_with_their_deadlines() {
    auto queue = *flatpq::queue<>::open();
    const auto begun = clock_of::now();
    CHECK(queue.take(flatpq::now).error() == code::empty && queue.take(-1h).error() == code::empty);
    CHECK(queue.take(begun).error() == code::empty && queue.take(clock_of::time_point::min()).error() == code::empty);
    CHECK(clock_of::now() - begun < 10s);
    CHECK(queue.take(20ms).error() == code::empty && clock_of::now() - begun >= 20ms);
    CHECK(queue.take(std::chrono::duration<double, std::milli>(10.5)).error() == code::empty && clock_of::now() - begun >= 30500us);
    CHECK(queue.take(begun + 50ms).error() == code::empty && clock_of::now() - begun >= 50ms);
    std::thread pushing([&queue] {
        for (std::uint64_t i = 1; i <= 4; ++i) {
            std::this_thread::sleep_for(2ms);
            CHECK(queue.push(i, 10 * i));
        }
    });
    CHECK(*queue.take() == (item<>{1, 10}) && *queue.take(std::chrono::hours::max()) == (item<>{2, 20}));
    CHECK(*queue.take(clock_of::time_point::max()) == (item<>{3, 30}) && *queue.take(clock_of::now() + 1h) == (item<>{4, 40}));
    pushing.join();
}

static void items_have_an_order() {
    std::vector<item<double>> items = {{5, 1}, {-3, 9}, {5, 0}, {-0.0, 4}};
    std::sort(items.begin(), items.end());
    CHECK((items == std::vector<item<double>>{{-3, 9}, {0.0, 4}, {5, 0}, {5, 1}}));
    CHECK(items[0] < items[1] && items[1] <= items[1] && items[2] > items[1] && !(items[1] > items[1]) && items[2] >= items[2] && items[2] != items[3]);
}

int main() {
    results_are_checked();
    files_of_both_kinds_are_one_program();
    codes_are_those_of_the_header();
    openings_are_refused();
    queues_are_opened_in_others();
    deadlines_are_rounded_up();
    odd_units_are_rounded_up();
    waits_end_with_their_deadlines();
    items_have_an_order();
    return 0;
}
