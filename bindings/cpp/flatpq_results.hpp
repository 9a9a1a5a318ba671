// flatpq: what calls take and return in C++17 and later: codes, results, and deadlines. flatpq.hpp includes this file.
#ifndef FLATPQ_RESULTS_HPP
#define FLATPQ_RESULTS_HPP

#include "flatpq.h"

#include <chrono>
#include <cstdint>
#include <cstdio>
#include <cstdlib>
#include <optional>
#include <ratio>
#include <stdexcept>
#include <type_traits>
#include <utility>

// A source file without exceptions has these functions under names of its own. So a program may have source files of both kinds.
#if defined(__cpp_exceptions)
#define FLATPQ_MAY_THROW
#else
#define FLATPQ_MAY_THROW [[gnu::abi_tag("without_exceptions")]]
#endif

namespace flatpq {

/// The codes of flatpq.h, where each has its meaning.
enum class code : std::uint32_t {
    ok = PQ_OK, empty = PQ_EMPTY, not_due = PQ_NOT_DUE, full = PQ_FULL, shut = PQ_SHUT, closed = PQ_CLOSED, timed_out = PQ_TIMED_OUT,
    no_member = PQ_NO_MEMBER, // also of a queue or a member that was moved from
    bad_option = PQ_BAD_OPTION, no_memory = PQ_NO_MEMORY, forked = PQ_FORKED, processor = PQ_PROCESSOR,
    all_joined = PQ_ALL_JOINED, members_left = PQ_MEMBERS_LEFT, exhausted = PQ_EXHAUSTED,
    journal_full = PQ_JOURNAL_FULL, unarchived = PQ_UNARCHIVED, forgotten = PQ_FORGOTTEN, no_entry = PQ_NO_ENTRY, not_written = PQ_NOT_WRITTEN,
    not_lawful = PQ_NOT_LAWFUL, torn = PQ_TORN, not_read = PQ_NOT_READ,
    no_timer = PQ_NO_TIMER, gone = PQ_GONE, no_tickets = PQ_NO_TICKETS,
};

/// The text of a code.
[[nodiscard]] inline const char *text(code why) noexcept { return pq_code_text(static_cast<std::uint32_t>(why)); }

/// What result::value() throws.
class error : public std::runtime_error {
public:
    explicit error(flatpq::code why) : std::runtime_error(text(why)), why_(why) {}
    [[nodiscard]] flatpq::code code() const noexcept { return why_; }

private:
    flatpq::code why_;
};

/// A value, or the code that says why there is none. Without a value, value() throws flatpq::error, and `*` and `->` end the program with
/// the text of the code. Without exceptions value() does the same as `*`. Of a temporary result both return the value itself, so a loop can go
/// through `queue.close().value()`.
template <class T> class [[nodiscard]] result {
public:
    result(T value) noexcept : value_(std::move(value)) {}
    result(code why) noexcept : error_(why) {}
    template <class... From>
    explicit result(std::in_place_t, From &&...from) noexcept : value_(std::in_place, std::forward<From>(from)...) {}

    [[nodiscard]] explicit operator bool() const noexcept { return value_.has_value(); }
    [[nodiscard]] bool has_value() const noexcept { return value_.has_value(); }
    /// code::ok if there is a value.
    [[nodiscard]] code error() const noexcept { return error_; }

    [[nodiscard]] T &operator*() & noexcept { return *checked(); }
    [[nodiscard]] const T &operator*() const & noexcept { return *checked(); }
    [[nodiscard]] T operator*() && noexcept { return std::move(*checked()); }
    [[nodiscard]] T *operator->() noexcept { return checked(); }
    [[nodiscard]] const T *operator->() const noexcept { return checked(); }
    FLATPQ_MAY_THROW T &value() & { return *or_thrown(); }
    FLATPQ_MAY_THROW const T &value() const & { return *or_thrown(); }
    FLATPQ_MAY_THROW T value() && { return std::move(*or_thrown()); }
    template <class U> [[nodiscard]] T value_or(U &&other) && { return std::move(value_).value_or(std::forward<U>(other)); }
    template <class U> [[nodiscard]] T value_or(U &&other) const & { return value_.value_or(std::forward<U>(other)); }

private:
    const T *checked() const noexcept {
        if (!value_) {
            std::fprintf(stderr, "flatpq: no value: %s\n", text(error_));
            std::abort();
        }
        return &*value_;
    }
    T *checked() noexcept { return const_cast<T *>(std::as_const(*this).checked()); }
    FLATPQ_MAY_THROW const T *or_thrown() const {
#if defined(__cpp_exceptions)
        if (!value_) {
            throw flatpq::error(error_);
        }
#endif
        return checked();
    }
    FLATPQ_MAY_THROW T *or_thrown() { return const_cast<T *>(std::as_const(*this).or_thrown()); }

    std::optional<T> value_{};
    code error_ = code::ok;
};

/// What a call found that takes: an item, or code::empty, code::not_due, code::shut, or a refusal.
template <class Item, class First> class [[nodiscard]] found : public result<Item> {
public:
    template <class... From>
    found(std::in_place_t how, std::uint64_t number, From &&...from) noexcept
        : result<Item>(how, std::forward<From>(from)...), number_(number) {}
    found(code why, std::uint64_t number = 0, std::optional<First> first = {}) noexcept
        : result<Item>(why), number_(number), first_(std::move(first)) {}

    /// The number of the call's journal entry, or of the first one of a batch; 0 if it has none. A pop of an empty queue has one, and so has
    /// a removal that comes to code::gone.
    [[nodiscard]] std::uint64_t number() const noexcept { return number_; }
    /// Of code::not_due the first item, which stays; of payloads its key.
    [[nodiscard]] const std::optional<First> &first() const & noexcept { return first_; }
    [[nodiscard]] std::optional<First> first() && noexcept { return std::move(first_); }

private:
    std::uint64_t number_;
    std::optional<First> first_{};
};

/// The deadline of a call that never waits: `queue.pop(flatpq::now)`.
struct now_t {};
inline constexpr now_t now{};

/// The time until which a call may wait: for ever if none is named; `flatpq::now`; a duration from now; or a time of steady_clock. It is
/// rounded up to nanoseconds. What lies more than 292 years ahead is for ever. A time of another clock doesn't compile.
class deadline {
public:
    deadline() noexcept = default;
    deadline(now_t) noexcept : at_(PQ_NOW) {}
    template <class Rep, class Period> deadline(std::chrono::duration<Rep, Period> longest) noexcept : at_(nanoseconds(longest)) {
        at_ = at_ == 0 ? PQ_NOW : pq_after(at_);
    }
    template <class Duration>
    deadline(std::chrono::time_point<std::chrono::steady_clock, Duration> time) noexcept : at_(nanoseconds(time.time_since_epoch())) {}
    template <class Clock, class Duration> deadline(std::chrono::time_point<Clock, Duration>) = delete;

    /// As the calls for C have it.
    [[nodiscard]] std::uint64_t at() const noexcept { return at_; }

private:
    template <class Rep, class Period> static std::uint64_t nanoseconds(std::chrono::duration<Rep, Period> longest) noexcept {
        if (!(longest > longest.zero())) {
            return 0;
        }
        if (std::chrono::duration<double, std::nano>(longest).count() >= 9.2e18) {
            return PQ_FOREVER;
        }
        if constexpr (std::is_integral_v<Rep>) {
            using to = std::ratio_divide<Period, std::nano>;
            __extension__ typedef unsigned __int128 wide;
            return static_cast<std::uint64_t>((static_cast<wide>(longest.count()) * to::num + (to::den - 1)) / to::den);
        } else {
            return static_cast<std::uint64_t>(std::chrono::ceil<std::chrono::nanoseconds>(longest).count());
        }
    }

    std::uint64_t at_ = PQ_FOREVER;
};

} // namespace flatpq

#endif
