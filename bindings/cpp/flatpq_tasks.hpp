// flatpq: a priority queue of payloads of any type, for C++17 and later: tasks, and not numbers.
//
//     flatpq::task_queue<std::string> queue;
//     queue.push(30u, "sleep").value();
//     while (auto task = queue.pop()) std::cout << task->priority << ' ' << task->payload << '\n';
//
// Its calls are those of flatpq::queue (flatpq.hpp). A payload of at most 8 bytes that is copied as bytes (std::is_trivially_copyable) lies in
// the item itself. Any other has memory of its own, which a push asks for (code::no_memory) and a pop frees. A push moves the payload in,
// and a pop moves it out; a refused push moves it back. One that was made from an argument of another type is dropped then. Payloads that
// nobody takes are dropped by clear(), with the journal of a closed queue, or with the last of a queue and its members. A type whose move
// constructor or destructor may throw is no payload: declare them noexcept, or push a std::unique_ptr.
//
// A journal has no payloads. Its entries show keys; as text they have for each payload a token: an address, which is used again, or the payload's
// own bytes. The padding in these is 0 where the compiler can clear it. So an archive of payloads is a record of what happened, and no payload
// is read back from it (read_from doesn't compile). A program that has to survive a restart stores its payloads by ids of its own, and pushes
// the ids into a flatpq::queue.
#ifndef FLATPQ_TASKS_HPP
#define FLATPQ_TASKS_HPP

#include "flatpq.hpp"

#include <cstddef>
#include <cstdint>
#include <cstring>
#include <memory>
#include <new>
#include <type_traits>
#include <utility>

namespace flatpq {

/// A payload, and its key.
template <class T, class Key = std::uint64_t> struct task {
    Key priority;
    T payload;

    template <class From = T> task(Key key, From &&from) : priority(key), payload(std::forward<From>(from)) {}
    /// A signed number is no unsigned key.
    template <class Number, class From = T, detail::if_signed_for<Key, Number> = 0> task(Number, From &&) = delete; // write 5u for 5
};

namespace detail {

/// Whether a payload lies in an item's value; else it has a block, whose address the value is.
template <class T> inline constexpr bool lies_in_value = sizeof(T) <= sizeof(std::uint64_t) && std::is_trivially_copyable_v<T>;

/// Moves a payload to where another is: one that is not assigned to without a throw is dropped, and made anew.
template <class T> void move_over(T &to, T &&from) noexcept {
    if constexpr (std::is_nothrow_move_assignable_v<T>) {
        to = std::move(from);
    } else {
        std::destroy_at(std::addressof(to));
        ::new (static_cast<void *>(std::addressof(to))) T(std::move(from));
    }
}

/// How a key and a payload lie in an item of the library.
template <class T, class Key> class payloads {
    static_assert(are_ordered<Key>, "specialise flatpq::key_order for this key (flatpq_keys.hpp)");
    static_assert(std::is_nothrow_move_constructible_v<T> && std::is_nothrow_destructible_v<T>,
                  "declare its move constructor and destructor noexcept, or push a std::unique_ptr to it");

    struct block {
        explicit block(T &&from) noexcept : payload(std::move(from)) {}
        T payload;
    };
    using own_block = std::unique_ptr<block>;
    static own_block block_of(std::uint64_t value) noexcept {
        return own_block(reinterpret_cast<block *>(value));
    }
    static void drop(void *, pq_item left) noexcept { block_of(left.value).reset(); }

public:
    using key = Key;
    using payload = T;
    using item = task<T, Key>;
    using first = Key;
    static constexpr void (*drops)(void *, pq_item) = lies_in_value<T> ? nullptr : &drop;

    template <class Item> static T &of(Item &from) noexcept {
        if constexpr (is_pair<Item>) {
            return from.second;
        } else {
            return from.payload;
        }
    }

    static bool put(T &from, std::uint64_t &value) noexcept {
        if constexpr (lies_in_value<T>) {
            block copy(std::move(from));
#if defined(__has_builtin)
#if __has_builtin(__builtin_clear_padding)
            __builtin_clear_padding(&copy);
#endif
#endif
            value = 0;
            std::memcpy(&value, std::addressof(copy.payload), sizeof(T));
            return true;
        } else {
            auto *const made = new (std::nothrow) block(std::move(from));
            value = reinterpret_cast<std::uintptr_t>(made);
            return made != nullptr;
        }
    }

    /// Moves a refused payload back.
    static void put_back(T &from, std::uint64_t value) noexcept {
        if constexpr (!lies_in_value<T>) {
            const own_block refused = block_of(value);
            move_over(from, std::move(refused->payload));
        }
    }

    /// Makes something of the payload of a value, which has none from now on.
    template <class Make> static auto take(std::uint64_t value, Make make) noexcept {
        if constexpr (lies_in_value<T>) {
            alignas(T) unsigned char room[sizeof(T)];
            std::memcpy(room, &value, sizeof(T));
            return make(std::move(*std::launder(reinterpret_cast<T *>(room))));
        } else {
            const own_block taken = block_of(value);
            return make(std::move(taken->payload));
        }
    }

    static Key shown(pq_item from) noexcept { return key_order<Key>::key(from.priority); }
};

} // namespace detail

/// A queue of payloads.
template <class T, class Key = std::uint64_t> using task_queue = basic_queue<detail::payloads<T, Key>>;
template <class T, class Key = std::uint64_t> using task_member = basic_member<detail::payloads<T, Key>>;
template <class T, class Key = std::uint64_t> using task_listener = basic_listener<detail::payloads<T, Key>>;
template <class T, class Key = std::uint64_t> using task_due_listener = basic_due_listener<detail::payloads<T, Key>>;
template <class T, class Key = std::uint64_t> using task_room_listener = basic_room_listener<detail::payloads<T, Key>>;
template <class T, class Key = std::uint64_t> using task_journal = basic_journal<detail::payloads<T, Key>>;

} // namespace flatpq

#endif
