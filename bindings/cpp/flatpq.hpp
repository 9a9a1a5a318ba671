// flatpq: a priority queue that threads share, for C++17 and later.
//
//     flatpq::queue<> queue;
//     queue.push(3u, 7).value();
//     while (const auto first = queue.pop()) std::cout << first->priority << ' ' << first->value << '\n';
//
// A queue<Key> holds items of a key and a 64-bit value; a task_queue<T, Key> (flatpq_tasks.hpp) holds payloads of a type of yours. Keys are numbers,
// times, or a type of the program (flatpq_keys.hpp). The item with the smallest key comes out first. Items of equal keys come out in the
// order in which they were pushed or moved there. flatpq.h says what each call does and what it asks of the program; this file adds types and
// ownership.
//
// A queue also has batches (push_many, pop_due_many, drain), an exact size() and peak_size(), and listeners for event loops. Options add a
// bound on its items (options::with_most_items), and tickets by which items are removed and moved (options::with_tickets). A program that
// writes archives to a file survives a crash: wait_archived waits until a push is on disk, and journal<Key>::read_from reads the file back.
//
// Any number of threads may call a queue itself. A thread gets a member of its own at its first call. If all members are in use it takes
// over an idle one, or waits for one. A thread that waits for an item or for room holds no member meanwhile, so any number may wait. A program
// that moves members between threads joins them (queue::join), and one that waits by such a member keeps it. The last argument is the time
// until which a call may wait (deadline); drain and clear have none.
//
// Queues, members, listeners and journals are moved and never copied, and free what they hold. They may end in any order: a joined member
// goes on after its queue has ended. If a queue, member or listener was moved from, its calls return code::no_member; batches of nothing
// do nothing. A journal that was moved from is empty.
// Members and listeners are in one call at a time, const or not; journals too, but for const calls. A const queue has calls that leave its
// items as they are.
//
// The constructors of a queue and result::value() throw flatpq::error. Containers and streams throw what they throw (std::bad_alloc), and so
// does a copy of a payload; nothing has changed then. All else is noexcept, but a journal's write,
// in which a thread may be cancelled. Without exceptions a queue is opened by open().
#ifndef FLATPQ_HPP
#define FLATPQ_HPP

#include "flatpq.h"
#include "flatpq_journal.hpp"
#include "flatpq_keys.hpp"
#include "flatpq_results.hpp"

#include <algorithm>
#include <cstddef>
#include <cstdint>
#include <initializer_list>
#include <iterator>
#include <memory>
#include <optional>
#include <sys/eventfd.h>
#include <sys/syscall.h>
#include <sys/timerfd.h>
#include <type_traits>
#include <unistd.h>
#include <utility>
#include <vector>

namespace flatpq {

/// What happens to the journal's older entries, as enum pq_keeping says.
enum class keeping : std::uint32_t { forgets = PQ_FORGETS, refuses = PQ_REFUSES, fills = PQ_FILLS };

/// How a queue is opened, as pq_options says: `options{8}`, `options().with_tickets()`. It has up to `members` members at once, 1 to 64. Its
/// journal keeps `entries`, 0 for the usual number, but with `keeping::fills` 1 at least. It may have `most_items`, where 0 is no bound. With
/// `tickets` items can be removed or moved.
struct options {
    std::uint32_t members = 64;
    flatpq::keeping keeping = flatpq::keeping::forgets;
    std::uint32_t entries = 0;
    std::uint64_t most_items = 0;
    bool tickets = false;

    [[nodiscard]] constexpr options with_members(std::uint32_t most) const noexcept { return {most, keeping, entries, most_items, tickets}; }
    [[nodiscard]] constexpr options with_keeping(flatpq::keeping how, std::uint32_t count = 0) const noexcept {
        return {members, how, count, most_items, tickets};
    }
    [[nodiscard]] constexpr options with_most_items(std::uint64_t most) const noexcept { return {members, keeping, entries, most, tickets}; }
    [[nodiscard]] constexpr options with_tickets(bool are_there = true) const noexcept {
        return {members, keeping, entries, most_items, are_there};
    }
};

/// What push_many did: how many items it put in, why not the next one, and the number of the first one's journal entry, or 0. Up to 64 items have
/// consecutive entries, unless pushes wait for room, or memory for a payload was refused.
struct [[nodiscard]] pushed_many {
    std::size_t count;
    code error;
    std::uint64_t number;
    [[nodiscard]] explicit operator bool() const noexcept { return error == code::ok; }
};

template <class Items> class basic_listener;
template <class Items> class basic_due_listener;
template <class Items> class basic_room_listener;

namespace detail {

/// Whether an iterator says that its range can be gone through only once.
#if defined(__cpp_lib_concepts)
template <class It> inline constexpr bool is_single_pass = !std::forward_iterator<It>;
#else
template <class It, class = void> inline constexpr bool is_single_pass = false;
template <class It>
inline constexpr bool is_single_pass<It, std::void_t<typename std::iterator_traits<It>::iterator_category>> =
    !std::is_base_of_v<std::forward_iterator_tag, typename std::iterator_traits<It>::iterator_category>;
#endif

/// Whether what an iterator gives can be moved from, and moved back to.
template <class One> inline constexpr bool is_mutable = std::is_lvalue_reference_v<One> && !std::is_const_v<std::remove_reference_t<One>>;

/// How many items a batch hands to the library at once.
inline constexpr std::size_t batch_room = 64;

/// The calls that queues and members have in common.
template <class Items> class calls {
public:
    using key = typename Items::key;
    using payload = typename Items::payload;
    using item = typename Items::item;
    using first = typename Items::first;
    using found = flatpq::found<item, first>;
    using journal = basic_journal<Items>;

    /// Puts a key and a value, or a payload, in, and returns the number of the journal entry: with tickets the item's ticket. If the call is
    /// refused the payload is where it was. One that was made from an argument of another type is dropped: convert that before, as a
    /// std::unique_ptr<derived>. At a queue with a bound the call waits for room: code::full, if there was none until then.
    result<std::uint64_t> push(const key &priority, payload &&value, deadline until = {}) noexcept {
        return pushed(priority, value, [=](auto *by, pq_item in, auto *number) { return pq_push(by, in, until.at(), number); });
    }
    result<std::uint64_t> push(const key &priority, const payload &value, deadline until = {}) {
        return push(priority, payload(value), until);
    }

    /// Take the first item out, or show it: of payloads its key. They don't wait for an item. A peek has no journal entry.
    found pop(deadline until = {}) noexcept { return got<pq_pop>(until); }
    result<first> peek(deadline until = {}) const noexcept {
        pq_item raw = {};
        const auto why = static_cast<code>(pq_peek(member_, &raw, until.at(), nullptr));
        return why == code::ok ? result<first>(Items::shown(raw)) : why;
    }

    /// Takes the first item out if its key is at most this one. code::not_due: found::first() stays.
    found pop_due(const key &bound, deadline until = {}) noexcept { return due(key_order<key>::number(bound), until); }

    /// Removes the item with this ticket, the number that its push returned, and returns it. code::gone: no item waits under this ticket;
    /// code::no_tickets.
    found remove(std::uint64_t ticket, deadline until = {}) noexcept {
        return got([=](auto *by, auto *out, auto at, auto *number) { return pq_remove(by, ticket, out, at, number); }, until);
    }

    /// Moves the item with this ticket to this key, after others of that key, in one step, and returns its new ticket. Its payload stays where
    /// it is. code::gone, code::no_tickets; code::no_memory: the item stays as it was.
    result<std::uint64_t> reschedule(std::uint64_t ticket, const key &priority, deadline until = {}) noexcept {
        std::uint64_t number = 0;
        const auto why = static_cast<code>(pq_reschedule(member_, ticket, key_order<key>::number(priority), until.at(), &number));
        return why == code::ok ? result<std::uint64_t>(number) : why;
    }

    /// Waits for an item, and takes the first one out. code::empty: none came until then; code::timed_out; code::shut: it is shut and empty. By the
    /// queue itself a thread that waits holds no member, so any number of threads may wait.
    found take(deadline until = {}) noexcept { return got<pq_take>(until); }

    /// Waits until the first item is due, also in a shut queue, and takes it out. Keys are times. code::not_due: found::first() stays.
    found take_due(deadline until = {}) noexcept {
        static_assert(are_times<key>, "keys are times of std::chrono::steady_clock");
        return got<pq_take_due>(until);
    }

    /// Puts a range of items in, and moves their payloads, up to the first that is refused. Its items are those of the queue, types of the
    /// program with the same members, or pairs, as of a std::map. Of values braces will do: `queue.push_many({{1, 2}, {3, 4}})`. The range must
    /// allow two passes, as a vector does. Collect what a drain or an input iterator gives into a vector first.
    template <class Range = std::initializer_list<item>> pushed_many push_many(Range &&items, deadline until = {}) noexcept {
        using one = decltype(*std::begin(items));
        static_assert(!is_single_pass<decltype(std::begin(items))>, "a batch is a range that can be gone through twice");
        static_assert(std::is_same_v<Items, values<key>> || is_mutable<one>,
                      "push_many moves the payloads out of the range: they may be neither const nor temporary");
        static_assert(!is_signed_for<key, std::decay_t<decltype(key_of(std::declval<one>()))>>, "a signed number is no unsigned key");
        pushed_many all = {0, code::ok, 0};
        const auto end = std::end(items);
        for (auto at = std::begin(items); all && at != end;) {
            pq_item raw[batch_room];
            std::size_t count = 0, done = 0;
            for (auto it = at; it != end && count < batch_room; ++it) {
                auto &&next = *it;
                if (!Items::put(Items::of(next), raw[count].value)) {
                    break;
                }
                raw[count++].priority = key_order<key>::number(key_of(next));
            }
            std::uint64_t *const number = all.count == 0 ? &all.number : nullptr;
            all.error = count > 0 ? static_cast<code>(pq_push_many(member_, raw, count, until.at(), &done, number)) : code::no_memory;
            all.count += done;
            for (std::size_t i = 0; i < count; ++i, ++at) {
                if (i >= done) {
                    auto &&refused = *at;
                    Items::put_back(Items::of(refused), raw[i].value);
                }
            }
        }
        return all;
    }

    /// Takes up to `room` items out whose keys are at most this one: found::number() is that of the first one's journal entry. It asks for the
    /// memory of as many items first.
    flatpq::found<std::vector<item>, first> pop_due_many(const key &bound, std::size_t room, deadline until = {}) {
        using many = flatpq::found<std::vector<item>, first>;
        std::vector<item> items;
        items.reserve(room);
        pq_item raw[batch_room] = {};
        auto why = code::ok;
        std::uint64_t number = 0;
        for (std::size_t done = batch_room; why == code::ok && done == batch_room && items.size() < room;) {
            const std::size_t most = std::min(batch_room, room - items.size());
            std::uint64_t *const first_number = items.empty() ? &number : nullptr;
            done = 0;
            why = static_cast<code>(pq_pop_due_many(member_, key_order<key>::number(bound), raw, most, until.at(), &done, first_number));
            for (const pq_item *it = raw; it != raw + done; ++it) {
                Items::take(it->value, [&](payload &&value) { items.emplace_back(key_order<key>::key(it->priority), std::move(value)); });
            }
        }
        return !items.empty() || why == code::ok ? many(std::in_place, number, std::move(items)) : many(why, 0, stays(why, raw[0]));
    }

    /// How many items the queue has, exactly, at one moment of the call.
    result<std::uint64_t> size(deadline until = {}) const noexcept {
        std::uint64_t count = 0;
        const auto why = static_cast<code>(pq_size(member_, until.at(), &count, nullptr));
        return why == code::ok ? result<std::uint64_t>(count) : why;
    }

    /// The most items that the queue has had at once, exactly, from when it was opened to one moment of the call.
    result<std::uint64_t> peak_size(deadline until = {}) const noexcept {
        std::uint64_t count = 0, peak = 0;
        const auto why = static_cast<code>(pq_size(member_, until.at(), &count, &peak));
        return why == code::ok ? result<std::uint64_t>(peak) : why;
    }

    /// Takes all items out, or those whose keys are at most this one: `for (auto &item : queue.drain())`. Each is a call of its own, so the loop
    /// may not end while others push. A drain is a range that std::views take, by its name too: `queue.drain() | std::views::take(3)`.
    [[nodiscard]] auto drain() & noexcept { return drained<next_due>(next_due{this, UINT64_MAX}); }
    [[nodiscard]] auto drain(const key &bound) & noexcept { return drained<next_due>(next_due{this, key_order<key>::number(bound)}); }

    /// Takes all items out as a drain does, drops them, and returns how many there were.
    result<std::size_t> clear() noexcept {
        auto all = drain();
        const auto count = static_cast<std::size_t>(std::distance(all.begin(), all.end()));
        return all.error() == code::empty ? result<std::size_t>(count) : all.error();
    }

    /// Takes the first item out, or the first one whose key is at most this one. Else the member listens: code::empty, or code::not_due with
    /// found::first(), which stays. It never waits. notify() is called at most once then, in any thread that calls the queue, or in this call. It
    /// must not throw, wait or call the library, and has to live until it was called or the member listens no more. code::all_joined: as many
    /// listen as may (flatpq.h).
    template <class Notify> found take_or_listen(Notify &notify) noexcept { return listened(UINT64_MAX, notify); }
    template <class Notify> found take_or_listen(const key &bound, Notify &notify) noexcept {
        return listened(key_order<key>::number(bound), notify);
    }
    /// Takes the first item out if it is due. Else the member listens by a timer, as pq_take_due_or_listen says: code::empty, or code::not_due
    /// with found::first(), which stays. Keys are times.
    found take_due_or_listen(int timer) noexcept {
        static_assert(are_times<key>, "keys are times of std::chrono::steady_clock");
        return got([=](auto *by, auto *out, auto, auto *number) { return pq_take_due_or_listen(by, timer, out, number); }, {});
    }
    /// Puts a key and a value, or a payload, in, as push() does, if there is room; else the member listens for it: code::full. notify() is as of
    /// take_or_listen.
    template <class Notify> result<std::uint64_t> push_or_listen(const key &priority, payload &&value, Notify &notify) noexcept {
        return pushed_or_listens(priority, value, call_of<Notify>, context_of(notify));
    }
    template <class Notify> result<std::uint64_t> push_or_listen(const key &priority, const payload &value, Notify &notify) {
        return push_or_listen(priority, payload(value), notify);
    }
    /// Ends the listening. Returns whether the member listened, and was not notified.
    bool unlisten() noexcept { return member_ != nullptr && pq_unlisten(member_) != 0; }

    /// Copies the journal entries after the first `archived`, and counts those first ones as archived from now on. Entries of a task_queue have
    /// keys, and no payloads.
    result<journal> archive(std::uint64_t archived, deadline until = {}) noexcept {
        pq_journal *copied = nullptr;
        const auto why = static_cast<code>(pq_archive(member_, archived, until.at(), &copied));
        return why == code::ok ? result<journal>(journal(copied)) : why;
    }

    /// The place by which journal entries name the member; UINT32_MAX if there is none at the moment.
    [[nodiscard]] std::uint32_t place() const noexcept { return member_ != nullptr ? pq_place(member_) : UINT32_MAX; }

    /// A signed number is no unsigned key: write 5u for 5, or name a signed Key. Compilers show these lines.
    template <class Number, if_signed_for<key, Number> = 0> void push(Number, payload, deadline = {}) = delete; // write 5u for 5
    template <class Number, if_signed_for<key, Number> = 0> void reschedule(std::uint64_t, Number, deadline = {}) = delete; // write 5u for 5
    template <class Number, if_signed_for<key, Number> = 0> void pop_due(Number, deadline = {}) = delete; // write 5u for 5
    template <class Number, if_signed_for<key, Number> = 0> void pop_due_many(Number, std::size_t, deadline = {}) = delete; // write 5u for 5
    template <class Number, if_signed_for<key, Number> = 0> void drain(Number) = delete; // write 5u for 5
    template <class Number, class Notify, if_signed_for<key, Number> = 0> void take_or_listen(Number, Notify &) = delete; // write 5u for 5
    template <class Number, class Notify, if_signed_for<key, Number> = 0> void push_or_listen(Number, payload, Notify &) = delete; // write 5u for 5

protected:
    explicit calls(pq_member *member) noexcept : member_(member) {}
    calls(calls &&other) noexcept : member_(std::exchange(other.member_, nullptr)) {}
    ~calls() = default;

    pq_member *member_;

private:
    friend class basic_listener<Items>;
    friend class basic_room_listener<Items>;

    struct next_due {
        calls *from;
        std::uint64_t bound;
        found operator()() const noexcept { return from->due(bound, {}); }
    };

    static std::optional<first> stays(code why, pq_item raw) noexcept {
        return why == code::not_due ? std::optional<first>(Items::shown(raw)) : std::nullopt;
    }

    template <class Call> result<std::uint64_t> pushed(const key &priority, payload &value, Call call) noexcept {
        pq_item in = {key_order<key>::number(priority), 0};
        if (!Items::put(value, in.value)) {
            return code::no_memory;
        }
        std::uint64_t number = 0;
        const auto why = static_cast<code>(call(member_, in, &number));
        if (why != code::ok) {
            Items::put_back(value, in.value);
            return why;
        }
        return number;
    }

    result<std::uint64_t> pushed_or_listens(const key &priority, payload &value, void (*notify)(void *), void *context) noexcept {
        const auto made =
            pushed(priority, value, [=](auto *by, pq_item in, auto *number) { return pq_push_or_listen(by, in, number, notify, context); });
        if (made.error() == code::no_memory) {
            unlisten(); // of the payload's memory the library was not asked
        }
        return made;
    }

    template <class Call> found got(Call call, deadline until) noexcept {
        pq_item raw = {};
        std::uint64_t number = 0;
        const auto why = static_cast<code>(call(member_, &raw, until.at(), &number));
        if (why != code::ok) {
            return found(why, number, stays(why, raw));
        }
        return Items::take(raw.value, [&](payload &&value) {
            return found(std::in_place, number, key_order<key>::key(raw.priority), std::move(value));
        });
    }

    template <pq_code (*Call)(pq_member *, pq_item *, std::uint64_t, std::uint64_t *)> found got(deadline until) noexcept {
        return got([](auto... with) { return Call(with...); }, until);
    }

    found due(std::uint64_t bound, deadline until) noexcept {
        return got([=](auto *by, auto *out, auto at, auto *number) { return pq_pop_due(by, bound, out, at, number); }, until);
    }

    found listened_by(std::uint64_t bound, void (*notify)(void *), void *context) noexcept {
        return got([=](auto *by, auto *out, auto, auto *number) { return pq_take_or_listen(by, bound, out, number, notify, context); }, {});
    }

    template <class Notify> static void call_of(void *notify) noexcept { (*reinterpret_cast<Notify *>(notify))(); }
    template <class Notify> static void *context_of(Notify &notify) noexcept {
        return reinterpret_cast<void *>(reinterpret_cast<std::uintptr_t>(std::addressof(notify)));
    }

    template <class Notify> found listened(std::uint64_t bound, Notify &notify) noexcept {
        return listened_by(bound, call_of<Notify>, context_of(notify));
    }
};

} // namespace detail

/// A member of a queue. It is given back when it ends.
template <class Items> class basic_member : public detail::calls<Items> {
public:
    explicit basic_member(pq_member *own) noexcept : detail::calls<Items>(own) {}
    basic_member(basic_member &&) noexcept = default;
    basic_member &operator=(basic_member &&other) noexcept {
        basic_member moved(std::move(other));
        std::swap(this->member_, moved.member_);
        return *this;
    }
    ~basic_member() { give_back(); }

    /// Gives the member back now.
    void give_back() noexcept { pq_give_back(std::exchange(this->member_, nullptr)); }
};

namespace detail {

/// A member with a descriptor, which is closed once the member was given back. The function syscall is no cancellation point.
template <class Items> class with_descriptor {
public:
    using key = typename Items::key;
    using found = typename calls<Items>::found;

    /// The descriptor. It is readable from the start. After a call that found nothing it becomes readable once an item may be there or be due,
    /// or there may be room. It also does on a shut.
    [[nodiscard]] int fd() const noexcept { return fd_; }

protected:
    with_descriptor(int fd, basic_member<Items> member) noexcept : member_(std::move(member)), fd_(fd) {}
    with_descriptor(with_descriptor &&other) noexcept : member_(std::move(other.member_)), fd_(std::exchange(other.fd_, -1)) {}
    with_descriptor &operator=(with_descriptor &&other) noexcept {
        with_descriptor moved(std::move(other));
        std::swap(member_, moved.member_);
        std::swap(fd_, moved.fd_);
        return *this;
    }
    ~with_descriptor() {
        member_.give_back();
        if (fd_ >= 0) {
            ::syscall(SYS_close, fd_);
        }
    }

    basic_member<Items> member_;
    int fd_;
};

} // namespace detail

/// A member with a descriptor, for poll, epoll and their like.
template <class Items> class basic_listener : public detail::with_descriptor<Items> {
public:
    using key = typename Items::key;
    using found = typename detail::calls<Items>::found;

    /// Takes the first item out, or the first one whose key is at most this one. Call it when the descriptor is readable, until it returns
    /// code::empty, or code::not_due with found::first(), which stays. The descriptor is then readable once an item comes that may be for it, or
    /// the queue is shut. If other threads still have the lock, it is readable at once. After code::not_due call it again once first() is within
    /// the bound. It never waits. After code::shut, or a refusal, the descriptor stays readable.
    found take_or_listen() noexcept { return taken(UINT64_MAX); }
    found take_or_listen(const key &bound) noexcept { return taken(key_order<key>::number(bound)); }
    template <class Number, detail::if_signed_for<key, Number> = 0> void take_or_listen(Number) = delete; // write 5u for 5

private:
    template <class> friend class basic_queue;
    using detail::with_descriptor<Items>::with_descriptor;

    found taken(std::uint64_t bound) noexcept {
        auto first = this->member_.due(bound, now);
        if (first || this->fd_ < 0 || first.error() == code::forked) {
            this->member_.unlisten(); // it has its item: the next one is another's
            return first;
        }
        eventfd_t count = 0;
        ::syscall(SYS_read, this->fd_, &count, sizeof count);
        void *const context = reinterpret_cast<void *>(static_cast<std::intptr_t>(this->fd_));
        auto later = this->member_.listened_by(bound, pq_notify_fd, context);
        if (later.error() != code::empty && later.error() != code::not_due) {
            pq_notify_fd(context);
        }
        return later;
    }
};

/// A member with a timer: a descriptor that is readable once the first item is due. Keys are times.
template <class Items> class basic_due_listener : public detail::with_descriptor<Items> {
public:
    using found = typename detail::calls<Items>::found;

    /// Takes the first item out if it is due. Call it when the descriptor is readable, until it returns code::empty, or code::not_due with
    /// found::first(), which stays. The descriptor is then readable once the first item is due, an earlier one comes, or the queue is shut. If
    /// another thread had the lock for long, it becomes readable within 0.1 ms. It never waits. If it returns code::shut or a refusal the descriptor
    /// stays as it was. The program does not read it.
    found take_or_listen() noexcept { return this->member_.take_due_or_listen(this->fd_); }

private:
    template <class> friend class basic_queue;
    using detail::with_descriptor<Items>::with_descriptor;
};

/// A member with a descriptor, for event loops that push to a queue with a bound.
template <class Items> class basic_room_listener : public detail::with_descriptor<Items> {
public:
    using key = typename Items::key;
    using payload = typename Items::payload;

    /// Puts a key and a value, or a payload, in, if there is room. Else it returns code::full, and the payload is where it was. Call it when there
    /// is something to push, and after code::full once the descriptor is readable: after a pop, a removal or a shut. It never waits. After a push
    /// the descriptor stays unreadable, even if there is room. After code::shut, or a refusal, it stays readable.
    result<std::uint64_t> push_or_listen(const key &priority, payload &&value) noexcept {
        eventfd_t count = 0;
        void *const context = reinterpret_cast<void *>(static_cast<std::intptr_t>(this->fd_));
        if (this->member_.place() == UINT32_MAX) { // in a forked child, which has the parent's descriptor
            return this->member_.push(priority, std::move(value), now);
        }
        ::syscall(SYS_read, this->fd_, &count, sizeof count);
        const auto made = this->member_.pushed_or_listens(priority, value, pq_notify_fd, context);
        if (!made && made.error() != code::full) {
            pq_notify_fd(context);
        }
        return made;
    }
    result<std::uint64_t> push_or_listen(const key &priority, const payload &value) { return push_or_listen(priority, payload(value)); }
    template <class Number, detail::if_signed_for<key, Number> = 0> void push_or_listen(Number, payload) = delete; // write 5u for 5

    /// Ends the listening, so that others that listen for room get what this one was notified of. Its end does so too.
    void unlisten() noexcept { this->member_.unlisten(); }

private:
    template <class> friend class basic_queue;
    using detail::with_descriptor<Items>::with_descriptor;
};

/// A priority queue that threads share.
template <class Items> class basic_queue : public detail::calls<Items> {
public:
    using key = typename Items::key;
    using member = basic_member<Items>;
    using listener = basic_listener<Items>;
    using due_listener = basic_due_listener<Items>;
    using room_listener = basic_room_listener<Items>;
    using journal = basic_journal<Items>;

    /// Open a queue. If open() returns code::bad_option, no_memory, forked or processor, the constructors throw it.
    FLATPQ_MAY_THROW basic_queue() : basic_queue(options()) {}
    FLATPQ_MAY_THROW explicit basic_queue(options asked) : basic_queue(open(asked).value()) {}
    [[nodiscard]] static result<basic_queue> open(options asked = {}) noexcept {
        pq_options raw = {asked.members, static_cast<std::uint32_t>(asked.keeping), asked.entries, asked.tickets, 0, 0, asked.most_items};
        if constexpr (detail::are_times<key>) {
            raw.time_zero = key_order<key>::time_zero;
            raw.time_unit = key_order<key>::time_unit;
        }
        pq_queue *opened = nullptr;
        const auto why = static_cast<code>(pq_open(&raw, &opened));
        return why == code::ok ? result<basic_queue>(basic_queue(opened, pq_own(opened))) : why;
    }
    basic_queue(const basic_queue &) = delete;
    basic_queue &operator=(const basic_queue &) = delete;
    basic_queue(basic_queue &&other) noexcept
        : detail::calls<Items>(std::move(other)), queue_(std::exchange(other.queue_, nullptr)) {}
    basic_queue &operator=(basic_queue &&other) noexcept {
        basic_queue moved(std::move(other));
        std::swap(this->member_, moved.member_);
        std::swap(queue_, moved.queue_);
        return *this;
    }
    /// No thread that waits is woken: shut the queue first. The payloads that are left are dropped once the last joined member has ended. A
    /// payload's destructor that runs here and calls the queue gets code::closed.
    ~basic_queue() { pq_free(queue_, Items::drops, nullptr); }

    /// Joins the queue. If all members are in use it takes over an idle one, or waits until `until` for one that is given back: code::all_joined.
    result<member> join(deadline until = {}) noexcept {
        pq_member *joined = nullptr;
        const auto why = queue_ != nullptr ? static_cast<code>(pq_join(queue_, until.at(), &joined)) : code::no_member;
        return why == code::ok ? result<member>(member(joined)) : why;
    }

    /// Join so, for an event loop that waits for any item, for what is due, or for room. code::no_memory also if the system gives no descriptor:
    /// errno says why, as EMFILE.
    result<listener> listen(deadline until = {}) noexcept {
        return joined_as<listener>(until, [] { return eventfd(1, EFD_CLOEXEC | EFD_NONBLOCK); });
    }
    result<due_listener> listen_due(deadline until = {}) noexcept {
        return joined_as<due_listener>(until, [] {
            const int fd = timerfd_create(CLOCK_MONOTONIC, TFD_CLOEXEC | TFD_NONBLOCK);
            const itimerspec at_once = {{0, 0}, {0, 1}};
            return fd >= 0 && timerfd_settime(fd, 0, &at_once, nullptr) != 0 ? -1 : fd;
        });
    }

    result<room_listener> listen_room(deadline until = {}) noexcept {
        return joined_as<room_listener>(until, [] { return eventfd(1, EFD_CLOEXEC | EFD_NONBLOCK); });
    }

    /// Gives the calling thread's own member back now, if it has one.
    void leave() noexcept {
        if (queue_ != nullptr) {
            pq_leave(queue_);
        }
    }

    /// Shuts the queue down for good, as pq_shut does: each push is refused. Threads that wait for an item take what is left, and then return
    /// code::shut. It waits for nothing.
    code shut() noexcept { return queue_ != nullptr ? static_cast<code>(pq_shut(queue_)) : code::no_member; }
    /// Whether that was done: each push that begins from now on is refused.
    [[nodiscard]] bool is_shut() const noexcept { return queue_ != nullptr && pq_is_shut(queue_) != 0; }

    /// Waits until an archive has counted the entry of this number as archived. code::ok, code::timed_out, code::closed.
    [[nodiscard]] code wait_archived(std::uint64_t number, deadline until = {}) const noexcept {
        return queue_ != nullptr ? static_cast<code>(pq_wait_archived(queue_, number, until.at())) : code::no_member;
    }

    /// Closes the queue, and returns its journal, with the items that are left. code::members_left, code::no_memory: it stays open.
    result<journal> close() noexcept {
        pq_journal *closed = nullptr;
        const auto why = queue_ != nullptr ? static_cast<code>(pq_close(queue_, &closed)) : code::no_member;
        return why == code::ok ? result<journal>(journal(closed)) : why;
    }

private:
    basic_queue(pq_queue *opened, pq_member *own) noexcept : detail::calls<Items>(own), queue_(opened) {}

    template <class Listener, class Open> result<Listener> joined_as(deadline until, Open open) noexcept {
        Listener made(open(), member(nullptr));
        if (made.fd_ < 0) {
            return code::no_memory;
        }
        auto joined = join(until);
        if (!joined) {
            return joined.error();
        }
        made.member_ = *std::move(joined);
        return result<Listener>(std::move(made));
    }

    pq_queue *queue_;
};

/// A queue of keys and 64-bit values.
template <class Key = std::uint64_t> using queue = basic_queue<detail::values<Key>>;
template <class Key = std::uint64_t> using member = basic_member<detail::values<Key>>;
template <class Key = std::uint64_t> using listener = basic_listener<detail::values<Key>>;
template <class Key = std::uint64_t> using due_listener = basic_due_listener<detail::values<Key>>;
template <class Key = std::uint64_t> using room_listener = basic_room_listener<detail::values<Key>>;
template <class Key = std::uint64_t> using journal = basic_journal<detail::values<Key>>;

} // namespace flatpq

#endif
