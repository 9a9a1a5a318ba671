// Shortest paths over a square grid, whose steps cost 1 to 100, in threads: each takes the open node of the smallest priority, and
// opens its neighbours that it reaches for less. The nodes are in the queue, or in a std::priority_queue under a std::mutex. Both push
// all neighbours of a node at once.
#ifndef PATHS_HPP
#define PATHS_HPP

#include "events.hpp"
#include "flatpq.h"

#include <atomic>
#include <cstdint>
#include <cstdlib>
#include <vector>

class open_nodes {
public:
    explicit open_nodes(std::uint32_t workers) {
        pq_options options = {};
        options.members = workers;
        if (pq_open(&options, &queue_) != PQ_OK) {
            std::abort();
        }
    }
    ~open_nodes() { pq_free(queue_, nullptr, nullptr); }
    open_nodes(const open_nodes &) = delete;
    open_nodes &operator=(const open_nodes &) = delete;
    void push(const pq_item *items, std::size_t count) {
        std::size_t done = 0;
        if (count > 0 && pq_push_many(pq_own(queue_), items, count, PQ_FOREVER, &done, nullptr) != PQ_OK) {
            std::abort();
        }
    }
    bool pop(pq_item &item) { return pq_pop_due(pq_own(queue_), UINT64_MAX, &item, PQ_FOREVER, nullptr) == PQ_OK; }

private:
    pq_queue *queue_ = nullptr;
};

class locked_nodes {
public:
    explicit locked_nodes(std::uint32_t) {}
    void push(const pq_item *items, std::size_t count) {
        const std::lock_guard<std::mutex> held(lock_);
        for (std::size_t i = 0; i < count; ++i) {
            heap_.emplace(items[i].priority, items[i].value);
        }
    }
    bool pop(pq_item &item) {
        const std::lock_guard<std::mutex> held(lock_);
        if (heap_.empty()) {
            return false;
        }
        item = {heap_.top().first, heap_.top().second};
        heap_.pop();
        return true;
    }

private:
    std::mutex lock_;
    std::priority_queue<event, std::vector<event>, std::greater<event>> heap_;
};

// The costs of the steps, by what they step on; and how far each node is by what was found so far.
class grid {
public:
    explicit grid(std::uint64_t side) : side_(side), costs_(side * side), far_(side * side) {
        numbers any(side);
        for (std::uint8_t &it : costs_) {
            it = static_cast<std::uint8_t>(1 + any.below(100));
        }
        forget();
    }
    void forget() {
        for (std::atomic<std::uint64_t> &it : far_) {
            it = UINT64_MAX;
        }
        far_[0] = 0;
    }
    std::uint64_t last() const { return side_ * side_ - 1; }
    std::uint64_t far(std::uint64_t node) const { return far_[node].load(std::memory_order_relaxed); }
    // What is left to the last node at the least.
    std::uint64_t left(std::uint64_t node) const { return 2 * (side_ - 1) - node / side_ - node % side_; }

    // Opens the neighbours of a node that are nearer by it: how many, of which it writes the nodes and how far they are.
    std::size_t open(std::uint64_t node, std::uint64_t far, pq_item *opened) {
        const std::uint64_t row = node / side_;
        const std::uint64_t column = node % side_;
        std::size_t count = 0;
        const auto try_one = [&](std::uint64_t next) {
            const std::uint64_t reached = far + costs_[next];
            std::uint64_t was = far_[next].load(std::memory_order_relaxed);
            while (reached < was) {
                if (far_[next].compare_exchange_weak(was, reached, std::memory_order_relaxed)) {
                    opened[count++] = {reached, next};
                    break;
                }
            }
        };
        if (row > 0) try_one(node - side_);
        if (row + 1 < side_) try_one(node + side_);
        if (column > 0) try_one(node - 1);
        if (column + 1 < side_) try_one(node + 1);
        return count;
    }

private:
    std::uint64_t side_;
    std::vector<std::uint8_t> costs_;
    std::vector<std::atomic<std::uint64_t>> far_;
};

// Whether a node that is so far off may still lead to a shorter path; with a guess of what is left the search ends at the last node.
inline bool is_wanted(const grid &of, std::uint64_t node, std::uint64_t far, bool guesses) {
    return far == of.far(node) && (!guesses || far + of.left(node) < of.far(of.last()));
}

template <class Nodes> void search(grid &of, std::uint32_t workers, bool guesses) {
    Nodes open(workers);
    const pq_item first = {guesses ? of.left(0) : 0, 0};
    std::atomic<std::uint64_t> pending{1};
    open.push(&first, 1);
    run_at_once(workers, [&](std::uint32_t) {
        return [&] {
            pq_item item;
            pq_item opened[4];
            while (pending.load() > 0) {
                if (!open.pop(item)) {
                    continue;
                }
                const std::uint64_t far = item.priority - (guesses ? of.left(item.value) : 0);
                if (is_wanted(of, item.value, far, guesses)) {
                    const std::size_t count = of.open(item.value, far, opened);
                    for (std::size_t i = 0; guesses && i < count; ++i) {
                        opened[i].priority += of.left(opened[i].value);
                    }
                    pending += count;
                    open.push(opened, count);
                }
                --pending;
            }
        };
    });
}

// Searches a grid of this side twice, and says whether both found paths of the same length to the last node.
template <class Nodes> bool finds_paths(std::uint32_t workers, std::uint64_t side, bool guesses, std::uint64_t &took) {
    grid of(side);
    search<locked_nodes>(of, 1, false);
    const std::uint64_t wanted = of.far(of.last());
    of.forget();
    const std::uint64_t began = nanoseconds_now();
    search<Nodes>(of, workers, guesses);
    took = nanoseconds_now() - began;
    return of.far(of.last()) == wanted;
}

#endif
