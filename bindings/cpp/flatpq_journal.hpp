// flatpq: items and journals in C++17 and later. flatpq.hpp includes this file.
#ifndef FLATPQ_JOURNAL_HPP
#define FLATPQ_JOURNAL_HPP

#include "flatpq.h"
#include "flatpq_keys.hpp"
#include "flatpq_results.hpp"

#include <cstddef>
#include <cstdint>
#include <iterator>
#include <memory>
#include <optional>
#include <ostream>
#include <type_traits>
#include <utility>

namespace flatpq {

/// What a member asks of the queue. After a shut its journal has no push.
enum class request : std::uint32_t {
    push = PQ_PUSH,
    pop = PQ_POP,
    peek = PQ_PEEK,
    remove = PQ_REMOVE,
    reschedule = PQ_RESCHEDULE,
    shut = PQ_SHUTS
};

/// An item: a key, and a value, which the queue never reads.
template <class Key = std::uint64_t> struct item {
    Key priority{};
    std::uint64_t value = 0;

    constexpr item() noexcept = default;
    constexpr item(Key key, std::uint64_t of) noexcept : priority(key), value(of) {}

    /// By key, as the queue orders keys, and among equal keys by value.
    friend bool operator<(const item &a, const item &b) noexcept { return a.numbers() < b.numbers(); }
    friend bool operator==(const item &a, const item &b) noexcept { return a.numbers() == b.numbers(); }
    friend bool operator!=(const item &a, const item &b) noexcept { return !(a == b); }
    friend bool operator>(const item &a, const item &b) noexcept { return b < a; }
    friend bool operator<=(const item &a, const item &b) noexcept { return !(b < a); }
    friend bool operator>=(const item &a, const item &b) noexcept { return !(a < b); }

private:
    [[nodiscard]] std::pair<std::uint64_t, std::uint64_t> numbers() const noexcept { return {key_order<Key>::number(priority), value}; }
};

/// A journal entry. `number` counts from 1, and `serial` the requests that the member at this place had made, this one included.
template <class First, class Key> struct entry {
    std::uint64_t number, serial;
    std::uint32_t place;
    flatpq::request request;
    code reply;                ///< code::ok; or code::empty, which a shut has
    std::optional<First> item; ///< pushed, or found, as it was then; of a payload its key
    std::uint64_t ticket;      ///< of request::remove and request::reschedule
    std::optional<Key> priority; ///< of request::reschedule the one that the item gets
};

namespace detail {

/// Whether a type is a std::pair; and the key of an item of a batch.
template <class Item> inline constexpr bool is_pair = false;
template <class Key, class Of> inline constexpr bool is_pair<std::pair<Key, Of>> = true;
template <class Item> const auto &key_of(const Item &it) noexcept {
    if constexpr (is_pair<Item>) {
        return it.first;
    } else {
        return it.priority;
    }
}

/// How a key and a value lie in an item of the library. `first` is what a call may show of an item that stays.
template <class Key> struct values {
    static_assert(are_ordered<Key>, "specialise flatpq::key_order for this key (flatpq_keys.hpp)");

    using key = Key;
    using payload = std::uint64_t;
    using item = flatpq::item<Key>;
    using first = item;
    static constexpr void (*drops)(void *, pq_item) = nullptr;

    template <class Item> static auto &of(Item &from) noexcept {
        if constexpr (is_pair<std::remove_const_t<Item>>) {
            return from.second;
        } else {
            return from.value;
        }
    }
    static bool put(const payload &from, std::uint64_t &value) noexcept {
        value = from;
        return true;
    }
    static void put_back(const payload &, std::uint64_t) noexcept {}
    template <class Make> static auto take(std::uint64_t value, Make make) noexcept { return make(std::move(value)); }
    static first shown(pq_item from) noexcept { return first(key_order<Key>::key(from.priority), from.value); }
};

/// An input range that takes each item out when the loop reaches it, and none before. The loop ends where no item comes. An item that came
/// and was not read is the next loop's first. If a drain is moved that item goes along, and its iterators are valid no more.
template <class Next> class drained {
    using result_of = std::invoke_result_t<Next &>;

public:
    class iterator {
    public:
        using iterator_category = std::input_iterator_tag;
        using reference = decltype(*std::declval<result_of &>());
        using value_type = std::remove_reference_t<reference>;
        using pointer = value_type *;
        using difference_type = std::ptrdiff_t;

        iterator() noexcept = default;
        explicit iterator(drained *of) noexcept : of_(of) {}
        [[nodiscard]] reference operator*() const noexcept {
            of_->is_read_ = true;
            return *of_->current();
        }
        [[nodiscard]] pointer operator->() const noexcept { return &**this; }
        /// Drops the item, and takes no other: a loop that ends here, as over std::views::take, takes no item that it doesn't read.
        iterator &operator++() noexcept {
            of_->current();
            of_->last_.reset();
            of_->is_read_ = false;
            return *this;
        }
        /// The same; `*at++` is the item that it drops.
        struct dropped {
            value_type item;
            [[nodiscard]] value_type operator*() noexcept { return std::move(item); }
        };
#pragma GCC diagnostic push
#pragma GCC diagnostic ignored "-Weffc++" // a proxy, as std::istreambuf_iterator has
        dropped operator++(int) noexcept {
            dropped last{std::move(**this)};
            ++*this;
            return last;
        }
#pragma GCC diagnostic pop
        friend bool operator==(const iterator &a, const iterator &b) noexcept { return a.is_over() == b.is_over(); }
        friend bool operator!=(const iterator &a, const iterator &b) noexcept { return !(a == b); }

    private:
        [[nodiscard]] bool is_over() const noexcept { return of_ == nullptr || !of_->current(); }

        drained *of_ = nullptr;
    };

    explicit drained(Next next) noexcept : next_(next) {}
    drained(drained &&other) noexcept : next_(other.next_) { take_along(other); }
    drained &operator=(drained &&other) noexcept {
        if (this != &other) {
            next_ = other.next_;
            last_.reset();
            take_along(other);
        }
        return *this;
    }
    [[nodiscard]] iterator begin() noexcept { return is_read_ || error() != code::ok ? ++iterator(this) : iterator(this); }
    [[nodiscard]] iterator end() noexcept { return iterator(nullptr); }
    /// Why the loop ended: code::empty, code::not_due, or a refusal; code::ok if it left off before that.
    [[nodiscard]] code error() const noexcept { return last_ ? last_->error() : code::ok; }
    /// Of a queue's drain: the number of the journal entry of the item that the loop is at; 0 if it is at none.
    [[nodiscard]] std::uint64_t number() const noexcept { return last_ ? last_->number() : 0; }

private:
    result_of &current() noexcept { return last_ ? *last_ : last_.emplace(next_()); }

    void take_along(drained &other) noexcept {
        if (other.last_) {
            last_.emplace(std::move(*other.last_));
            other.last_.reset();
        }
        is_read_ = std::exchange(other.is_read_, false);
    }

    Next next_;
    std::optional<result_of> last_{};
    bool is_read_ = false;
};

} // namespace detail

template <class Items> class read_back;

/// The journal of a closed queue with the items that are left in it, entries that archive() copied, or a journal that was read back. It drops
/// payloads that nobody takes.
template <class Items> class basic_journal {
public:
    using item = typename Items::item;
    using entry = flatpq::entry<typename Items::first, typename Items::key>;

    explicit basic_journal(pq_journal *own) noexcept : own_(own) {}

    [[nodiscard]] std::size_t size() const noexcept { return own_ ? pq_count(own_.get(), nullptr) : 0; }
    /// How many entries came before these.
    [[nodiscard]] std::uint64_t before() const noexcept {
        std::uint64_t count = 0;
        if (own_) {
            pq_count(own_.get(), &count);
        }
        return count;
    }

    /// The entry of this index, from 0: its number is before() + index + 1.
    [[nodiscard]] std::optional<entry> read(std::size_t index) const noexcept {
        pq_entry raw = {};
        if (!own_ || pq_read(own_.get(), index, &raw) != PQ_OK) {
            return std::nullopt;
        }
        const auto reply = static_cast<code>(raw.reply);
        entry made{raw.number, raw.serial, raw.place, static_cast<flatpq::request>(raw.request), reply, {}, raw.ticket, {}};
        if (reply == code::ok) {
            made.item = Items::shown(raw.item);
        }
        if (made.request == request::reschedule) {
            made.priority = key_order<typename Items::key>::key(raw.priority);
        }
        return made;
    }

    /// The entries in their order. An iterator is valid as long as its journal is.
    class iterator {
    public:
        using iterator_category = std::input_iterator_tag;
        using value_type = entry;
        using difference_type = std::ptrdiff_t;
        struct pointer {
            entry at;
            [[nodiscard]] const entry *operator->() const noexcept { return &at; }
        };
        using reference = entry;

        iterator() noexcept = default;
        iterator(const basic_journal *of, std::size_t index) noexcept : of_(of), index_(index) {}
        [[nodiscard]] entry operator*() const noexcept { return *of_->read(index_); }
        [[nodiscard]] pointer operator->() const noexcept { return {**this}; }
        iterator &operator++() noexcept {
            ++index_;
            return *this;
        }
        iterator operator++(int) noexcept { return iterator(of_, index_++); }
        friend bool operator==(const iterator &a, const iterator &b) noexcept { return a.index_ == b.index_; }
        friend bool operator!=(const iterator &a, const iterator &b) noexcept { return !(a == b); }

    private:
        const basic_journal *of_ = nullptr;
        std::size_t index_ = 0;
    };
    [[nodiscard]] iterator begin() const noexcept { return iterator(this, 0); }
    [[nodiscard]] iterator end() const noexcept { return iterator(this, size()); }

    /// Writes all entries as text to a file descriptor. code::ok, code::no_member; code::not_written: a part may be written. As pq_write it is
    /// a cancellation point.
    [[nodiscard]] code write(int file) const { return own_ ? static_cast<code>(pq_write(own_.get(), file)) : code::no_member; }

    /// The same to a stream, which it flushes.
    [[nodiscard]] code write(std::ostream &out) const {
        char line[PQ_TEXT_ROOM];
        pq_entry raw = {};
        for (std::size_t index = 0; out && own_ && pq_read(own_.get(), index, &raw) == PQ_OK; ++index) {
            out.write(line, static_cast<std::streamsize>(pq_text(&raw, line)));
        }
        return !own_ ? code::no_member : out.flush() ? code::ok : code::not_written;
    }

    /// Reads a journal of values back from a file descriptor, as pq_journal_read does.
    [[nodiscard]] static read_back<Items> read_from(int file) noexcept { return read_back<Items>(file); }

    /// Takes the first of the items out that are left. code::empty.
    [[nodiscard]] result<item> take() noexcept {
        pq_item raw = {};
        if (!own_ || pq_take_left(own_.get(), &raw) != PQ_OK) {
            return code::empty;
        }
        return Items::take(raw.value, [&](typename Items::payload &&payload) {
            return result<item>(std::in_place, key_order<typename Items::key>::key(raw.priority), std::move(payload));
        });
    }

    /// Takes the items out that are left: `for (auto &item : journal.left())`.
    [[nodiscard]] auto left() & noexcept { return detail::drained<next_left>(next_left{this}); }

private:
    struct next_left {
        basic_journal *from;
        result<item> operator()() const noexcept { return from->take(); }
    };
    struct frees {
        void operator()(pq_journal *own) const noexcept {
            pq_item raw = {};
            while (Items::drops != nullptr && pq_take_left(own, &raw) == PQ_OK) {
                Items::drops(nullptr, raw);
            }
            pq_journal_free(own);
        }
    };
    std::unique_ptr<pq_journal, frees> own_;
};

/// A journal that was read back; or code::not_lawful, code::not_read, code::no_memory, code::processor.
template <class Items> class [[nodiscard]] read_back : public result<basic_journal<Items>> {
    static_assert(std::is_same_v<Items, detail::values<typename Items::key>>, "payloads are not read back");

public:
    explicit read_back(int file) noexcept : read_back(file, nullptr) {}

    /// How many lines were read; of code::not_lawful the number of the refused line.
    [[nodiscard]] std::uint64_t lines() const noexcept { return lines_; }
    /// The length of those before a torn or refused one, in bytes: where a program cuts the file.
    [[nodiscard]] std::uint64_t bytes() const noexcept { return bytes_; }
    /// Whether the last line was cut off, and is left out.
    [[nodiscard]] bool is_torn() const noexcept { return is_torn_; }

private:
    using base = result<basic_journal<Items>>;

    read_back(int file, pq_journal *none) noexcept : base(code::not_read) {
        const auto why = static_cast<code>(pq_journal_read(file, &none, &lines_, &bytes_));
        is_torn_ = why == code::torn;
        static_cast<base &>(*this) = none != nullptr ? base(basic_journal<Items>(none)) : base(why);
    }

    std::uint64_t lines_ = 0, bytes_ = 0;
    bool is_torn_ = false;
};

} // namespace flatpq

#endif
