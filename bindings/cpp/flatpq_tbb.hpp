// flatpq: the members of oneTBB's concurrent_priority_queue over a flatpq::task_queue, for C++17 and later with exceptions.
//
//     flatpq::concurrent_priority_queue<job, flatpq::by<&job::urgency>> queue; // was: tbb::concurrent_priority_queue<job, less_urgent>
//     queue.emplace(7, "wake");
//     for (job first; queue.try_pop(first);) std::cout << first.name << '\n';
//
// Use it to try flatpq without changing call sites. What waits, as task_queue::take, and all else that a task_queue has, comes with a move to
// that one (flatpq_tasks.hpp). As in oneTBB the item that is greatest by Compare comes out first; of equal ones the first that was pushed.
//
// A queue orders items by a 64-bit number (flatpq_keys.hpp), and calls no Compare. So Compare is one of these; no other compiles:
// - std::less<T>, std::greater<T>, std::less<> or std::greater<>, where T has a key_order: numbers, enumerations, and times;
// - flatpq::by<Key> or flatpq::by<Key, std::greater<>>, where Key points to a member of T, or to a function of a T, whose type has a key_order.
// As of a task_queue, the move constructor and the destructor of T are noexcept.
//
// Any number of threads may call push, emplace, try_pop, size, empty and clear. As in oneTBB, all else is for one thread alone. What differs:
// - size() is exact, at one moment of the call. A capacity reserves nothing.
// - There are no allocators. Queues are neither copied nor compared, as no call reads all items. A Compare object is not kept: it has no state.
// - If a queue was moved from, calls throw flatpq::error with code::no_member, until another one is assigned.
//
// No exception loses an item. A push throws what the copy or the key of its item throws, or std::bad_alloc. Then nothing has changed, nor if an
// assign throws. A try_pop calls nothing of T that may throw: if the move assignment is not noexcept, it destroys the value, and makes it anew.
#ifndef FLATPQ_TBB_HPP
#define FLATPQ_TBB_HPP

#if !defined(__cpp_exceptions)
#error "flatpq_tbb.hpp throws as oneTBB does: without exceptions use flatpq::task_queue (flatpq_tasks.hpp)"
#endif

#include "flatpq_tasks.hpp"

#include <cstddef>
#include <cstdint>
#include <functional>
#include <initializer_list>
#include <iterator>
#include <new>
#include <type_traits>
#include <utility>

namespace flatpq {

/// Orders items by a key: a member of theirs, or what a function makes of one. The greatest key comes out first, with std::greater<> the
/// smallest. oneTBB's queue and std::priority_queue take it too.
template <auto Key, class Order = std::less<>> struct by {
    template <class T> bool operator()(const T &one, const T &other) const { return Order()(std::invoke(Key, one), std::invoke(Key, other)); }
};

namespace detail {

template <class T, class Compare>
inline constexpr bool is_less = std::is_same_v<Compare, std::less<T>> || std::is_same_v<Compare, std::less<>>;
template <class T, class Compare>
inline constexpr bool is_greater = std::is_same_v<Compare, std::greater<T>> || std::is_same_v<Compare, std::greater<>>;

/// The number of an item, which is the smaller the earlier Compare wants it out; and whether there is one.
template <class T, class Compare, class = void> struct ranked {
    static constexpr bool is_there = are_ordered<T> && (is_less<T, Compare> || is_greater<T, Compare>);
    static std::uint64_t number(const T &item) {
        const std::uint64_t number = key_order<T>::number(item);
        return is_less<T, Compare> ? ~number : number;
    }
};
template <class T, auto Key, class Order>
struct ranked<T, by<Key, Order>, std::void_t<std::invoke_result_t<decltype(Key), const T &>>> {
    using of_key = ranked<std::decay_t<std::invoke_result_t<decltype(Key), const T &>>, Order>;
    static constexpr bool is_there = of_key::is_there;
    static std::uint64_t number(const T &item) { return of_key::number(std::invoke(Key, item)); }
};

} // namespace detail

/// The members of tbb::concurrent_priority_queue, as above.
template <class T, class Compare = std::less<T>> class concurrent_priority_queue {
    using ranked = detail::ranked<T, Compare>;
    static_assert(ranked::is_there, "flatpq orders items by a 64-bit number: let Compare be std::less or std::greater of a type with a "
                                    "flatpq::key_order, or flatpq::by<&T::member>, which orders them by a member of such a type");

public:
    using value_type = T;
    using reference = T &;
    using const_reference = const T &;
    using size_type = std::size_t;
    using difference_type = std::ptrdiff_t;

    concurrent_priority_queue() = default;
    explicit concurrent_priority_queue(const Compare &) {}
    explicit concurrent_priority_queue(size_type, const Compare & = Compare()) {}
    template <class It> concurrent_priority_queue(It begin, It end, const Compare & = Compare()) {
        for (; begin != end; ++begin) {
            push(*begin);
        }
    }
    concurrent_priority_queue(std::initializer_list<T> items, const Compare & = Compare())
        : concurrent_priority_queue(items.begin(), items.end()) {}
    concurrent_priority_queue(const concurrent_priority_queue &) = delete; // a queue is moved: no call reads all items
    concurrent_priority_queue(concurrent_priority_queue &&) noexcept = default;
    concurrent_priority_queue &operator=(const concurrent_priority_queue &) = delete; // a queue is moved: no call reads all items
    concurrent_priority_queue &operator=(concurrent_priority_queue &&) noexcept = default;
    concurrent_priority_queue &operator=(std::initializer_list<T> items) {
        assign(items);
        return *this;
    }
    ~concurrent_priority_queue() = default;

    /// Puts an item in. If it throws, the argument is as it was.
    void push(const T &item) { push(T(item)); }
    void push(T &&item) {
        const auto pushed = queue_.push(ranked::number(item), std::move(item));
        if (pushed.error() == code::no_memory) {
            throw std::bad_alloc();
        }
        static_cast<void>(pushed.value());
    }
    template <class... From> void emplace(From &&...from) { push(T(std::forward<From>(from)...)); }

    /// Moves the first item out, into `item`: whether there was one.
    bool try_pop(T &item) {
        auto first = queue_.pop();
        if (first.error() == code::empty) {
            return false;
        }
        detail::move_over(item, std::move(first.value().payload));
        return true;
    }

    [[nodiscard]] bool empty() const { return size() == 0; }
    [[nodiscard]] size_type size() const { return static_cast<size_type>(queue_.size().value()); }
    void clear() { static_cast<void>(queue_.clear().value()); }

    /// Has these items in place of those that it had.
    template <class It> void assign(It begin, It end) {
        concurrent_priority_queue made(begin, end);
        swap(made);
    }
    void assign(std::initializer_list<T> items) { assign(items.begin(), items.end()); }

    void swap(concurrent_priority_queue &other) noexcept { std::swap(queue_, other.queue_); }
    friend void swap(concurrent_priority_queue &one, concurrent_priority_queue &other) noexcept { one.swap(other); }

private:
    task_queue<T> queue_{};
};

template <class It, class Compare = std::less<typename std::iterator_traits<It>::value_type>>
concurrent_priority_queue(It, It, Compare = Compare()) -> concurrent_priority_queue<typename std::iterator_traits<It>::value_type, Compare>;

} // namespace flatpq

#endif
