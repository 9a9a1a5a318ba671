// What programs that users write have their events in: the queue, by its calls for C, and, not verified, a std::mutex around
// std::priority_queue. Both are called once for up to 64 events. Such a program's words are `queue|mutex WORKERS COUNT`, and it
// prints `TABLE,KIND,WORKERS,COUNT,NANOSECONDS,audit ok`, or `audit failed` as the last field.
#ifndef EVENTS_HPP
#define EVENTS_HPP

#include "c_queues.hpp"
#include "load.hpp"
#include "numbers.hpp"

#include <array>
#include <cstddef>
#include <cstdint>
#include <functional>
#include <mutex>
#include <queue>
#include <string>
#include <utility>
#include <vector>

using event = std::pair<std::uint64_t, std::uint64_t>; // when, and what
constexpr std::size_t most_at_once = 64;

// The queue, by members. A batch of events is pushed or popped by one call.
class members {
public:
    explicit members(std::uint32_t workers) : shared_(workers) {}

    void push(std::uint32_t worker, const std::vector<event> &pushed) {
        std::array<pq_item, most_at_once> items;
        std::size_t done = 0;
        for (std::size_t i = 0; i < pushed.size(); ++i) {
            items[i] = {pushed[i].first, pushed[i].second};
        }
        need(pq_push_many(shared_.member(worker), items.data(), pushed.size(), PQ_FOREVER, &done, nullptr) == PQ_OK, "a push was refused");
    }

    void pop_due(std::uint32_t worker, std::uint64_t when, std::vector<event> &due) {
        std::array<pq_item, most_at_once> items;
        std::size_t done = 0;
        const pq_code code = pq_pop_due_many(shared_.member(worker), when, items.data(), items.size(), PQ_FOREVER, &done, nullptr);
        need(code == PQ_OK || code == PQ_NOT_DUE || code == PQ_EMPTY, "a pop was refused");
        for (std::size_t i = 0; i < done; ++i) {
            due.emplace_back(items[i].priority, items[i].value);
        }
    }

private:
    c_queue shared_;
};

class locked_heap {
public:
    explicit locked_heap(std::uint32_t) {}

    void push(std::uint32_t, const std::vector<event> &pushed) {
        const std::lock_guard<std::mutex> held(lock_);
        for (const event &it : pushed) {
            heap_.push(it);
        }
    }

    void pop_due(std::uint32_t, std::uint64_t when, std::vector<event> &due) {
        const std::lock_guard<std::mutex> held(lock_);
        while (due.size() < most_at_once && !heap_.empty() && heap_.top().first <= when) {
            due.push_back(heap_.top());
            heap_.pop();
        }
    }

private:
    std::mutex lock_;
    std::priority_queue<event, std::vector<event>, std::greater<event>> heap_;
};

// What an event comes to, after some 100 nanoseconds of work.
inline std::uint64_t worked_out(const event &it) {
    numbers any(it.first << 32 | it.second);
    std::uint64_t sum = 0;
    for (int i = 0; i < 50; ++i) {
        sum += any.any();
    }
    return sum;
}

// Makes the run that the words name, by the function for the queue or that for the mutex: each says what it took, and whether it
// was sound.
using function = bool (*)(std::uint32_t workers, std::uint64_t count, std::uint64_t &took);
inline int run_program(const char *table, char **words, function by_queue, function by_mutex) {
    std::uint64_t workers = 0;
    std::uint64_t count = 0;
    std::uint64_t took = 0;
    const std::string kind = words[0] == nullptr ? "" : words[0];
    const bool is_known = (kind == "queue" || kind == "mutex") && read_number(words[1], 1, 64, workers);
    if (!is_known || !read_number(words[2], 1, 10000000, count) || words[3] != nullptr) {
        std::fprintf(stderr, "usage: %s queue|mutex WORKERS COUNT\n", table);
        return 2;
    }
    const bool is_sound = (kind == "queue" ? by_queue : by_mutex)(static_cast<std::uint32_t>(workers), count, took);
    const std::uint64_t figures[] = {workers, count, took};
    return print_figures(table, words[0], figures, is_sound);
}

#endif
