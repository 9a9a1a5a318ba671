// What the queue is measured against, for the programs in C++: heaps of items behind a lock, with a line for each call in a ring. All keep
// the data that the queue keeps: 24 bytes an item, 64 a line, the last 1,024 lines.
#ifndef HEAPS_HPP
#define HEAPS_HPP

#include <algorithm>
#include <cstddef>
#include <cstdint>
#include <mutex>
#include <pthread.h>
#include <queue>
#include <vector>

struct item {
    std::uint64_t priority = 0;
    std::uint64_t value = 0;
};

struct entry {
    item kept;
    std::uint64_t number;
};

enum class request : std::uint32_t { push, pop };
enum class reply : std::uint32_t { pushed, got, empty };

struct alignas(64) line {
    std::uint64_t serial;
    std::uint32_t place;
    request asked;
    item pushed;
    reply replied;
    item got;
};

static_assert(sizeof(line) == 64 && sizeof(entry) == 24, "the same data as the queue's");

// The first out is the one of the lowest priority, and of equal ones the one pushed first.
inline bool comes_before(const entry &a, const entry &b) noexcept {
    return a.kept.priority != b.kept.priority ? a.kept.priority < b.kept.priority : a.number < b.number;
}

// The heap of the standard library.
class std_heap {
public:
    bool empty() const { return heap_.empty(); }
    void push(const entry &pushed) { heap_.push(pushed); }
    entry pop() {
        const entry first = heap_.top();
        heap_.pop();
        return first;
    }

private:
    struct comes_later {
        bool operator()(const entry &a, const entry &b) const noexcept { return comes_before(b, a); }
    };

    std::priority_queue<entry, std::vector<entry>, comes_later> heap_;
};

// A heap in an array, of so many below each.
template <std::size_t Below> class array_heap {
public:
    bool empty() const { return entries_.empty(); }
    void push(const entry &pushed) {
        entries_.push_back(pushed);
        rise(entries_.size() - 1, pushed);
    }

protected:
    // Puts an entry where a hole is, or above it, as far as it goes.
    void rise(std::size_t hole, const entry &rising) {
        while (hole > 0) {
            const std::size_t above = (hole - 1) / Below;
            if (!comes_before(rising, entries_[above])) {
                break;
            }
            entries_[hole] = entries_[above];
            hole = above;
        }
        entries_[hole] = rising;
    }

    std::vector<entry> entries_;
};

// Four below each: a hole sinks until the last entry fits.
class four_heap : public array_heap<4> {
public:
    entry pop() {
        const entry first = entries_.front();
        const entry last = entries_.back();
        entries_.pop_back();
        if (!entries_.empty()) {
            sink(last);
        }
        return first;
    }

private:
    void sink(const entry &last) {
        const std::size_t size = entries_.size();
        std::size_t hole = 0;
        for (std::size_t below = 1; below < size; below = 4 * hole + 1) {
            std::size_t first = below;
            for (std::size_t at = below + 1; at < std::min(below + 4, size); ++at) {
                first = comes_before(entries_[at], entries_[first]) ? at : first;
            }
            if (!comes_before(entries_[first], last)) {
                break;
            }
            entries_[hole] = entries_[first];
            hole = first;
        }
        entries_[hole] = last;
    }
};

// Two below each: a hole sinks to the bottom, and the last entry rises from there.
class hole_heap : public array_heap<2> {
public:
    entry pop() {
        const entry first = entries_.front();
        const entry last = entries_.back();
        entries_.pop_back();
        if (!entries_.empty()) {
            rise(bottom(), last);
        }
        return first;
    }

private:
    std::size_t bottom() {
        const std::size_t size = entries_.size();
        std::size_t hole = 0;
        for (std::size_t below = 1; below < size; below = 2 * hole + 1) {
            if (below + 1 < size && comes_before(entries_[below + 1], entries_[below])) {
                ++below;
            }
            entries_[hole] = entries_[below];
            hole = below;
        }
        return hole;
    }
};

// A mutex of the kind that spins a while before it sleeps.
class adaptive_mutex {
public:
    adaptive_mutex() {
        pthread_mutexattr_t kind;
        pthread_mutexattr_init(&kind);
        pthread_mutexattr_settype(&kind, PTHREAD_MUTEX_ADAPTIVE_NP);
        pthread_mutex_init(&lock_, &kind);
        pthread_mutexattr_destroy(&kind);
    }
    adaptive_mutex(const adaptive_mutex &) = delete;
    adaptive_mutex &operator=(const adaptive_mutex &) = delete;
    ~adaptive_mutex() { pthread_mutex_destroy(&lock_); }

    void lock() { pthread_mutex_lock(&lock_); }
    void unlock() { pthread_mutex_unlock(&lock_); }

private:
    pthread_mutex_t lock_;
};

// A heap behind a lock, with a ring of lines or without.
template <class Lock, class Heap, bool HasLines = true> class locked {
public:
    // All of the ring is written once, so that none of its pages is new in the run.
    explicit locked(std::uint32_t) : ring_(HasLines ? 1024 : 0, line{1, 1, request::pop, {1, 1}, reply::empty, {1, 1}}) {}

    void push(std::uint32_t worker, item pushed) {
        const std::lock_guard<Lock> held(lock_);
        heap_.push({pushed, calls_});
        add(worker, request::push, pushed, reply::pushed, {});
    }

    // Whether there was an item, and the item.
    bool pop(std::uint32_t worker, item &first) {
        const std::lock_guard<Lock> held(lock_);
        const bool is_there = !heap_.empty();
        first = is_there ? heap_.pop().kept : item{};
        add(worker, request::pop, {}, is_there ? reply::got : reply::empty, first);
        return is_there;
    }

    // Many of these under one lock.
    void push_many(std::uint32_t worker, const std::vector<item> &pushed) {
        const std::lock_guard<Lock> held(lock_);
        for (const item &it : pushed) {
            heap_.push({it, calls_});
            add(worker, request::push, it, reply::pushed, {});
        }
    }

    // So many at most; those that were there.
    void pop_many(std::uint32_t worker, std::size_t most, std::vector<item> &popped) {
        const std::lock_guard<Lock> held(lock_);
        popped.clear();
        while (popped.size() < most && !heap_.empty()) {
            popped.push_back(heap_.pop().kept);
            add(worker, request::pop, {}, reply::got, popped.back());
        }
    }

    // How many calls there have been, each of which has a line where there are lines.
    std::uint64_t lines() { return calls_; }

private:
    void add(std::uint32_t worker, request asked, item pushed, reply replied, item got) {
        ++calls_;
        if (HasLines) {
            ring_[calls_ % ring_.size()] = {calls_, worker, asked, pushed, replied, got};
        }
    }

    Lock lock_;
    Heap heap_;
    std::uint64_t calls_ = 0;
    std::vector<line> ring_;
};

#endif
