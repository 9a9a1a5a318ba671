// The queue by its calls for C, as the programs in C++ measure it.
#ifndef C_QUEUES_HPP
#define C_QUEUES_HPP

#include "flatpq.h"
#include "heaps.hpp"

#include <cstddef>
#include <cstdint>
#include <cstdio>
#include <cstdlib>
#include <vector>

// Ends the program unless this holds.
inline void need(bool holds, const char *what) {
    if (!holds) {
        std::fprintf(stderr, "%s\n", what);
        std::exit(1);
    }
}

// A queue, and for each worker a member, or for all of them pq_own.
class c_queue {
public:
    explicit c_queue(std::uint32_t workers, bool is_own = false) {
        need(pq_open(nullptr, &queue_) == PQ_OK, "no queue was opened");
        members_.assign(workers, pq_own(queue_));
        for (pq_member *&it : members_) {
            need(is_own || pq_join(queue_, PQ_NOW, &it) == PQ_OK, "a worker did not join");
        }
    }
    c_queue(const c_queue &) = delete;
    c_queue &operator=(const c_queue &) = delete;
    ~c_queue() { pq_free(queue_, nullptr, nullptr); }

    pq_member *member(std::uint32_t worker) { return members_[worker]; }

    void push(std::uint32_t worker, item pushed) {
        need(pq_push(members_[worker], {pushed.priority, pushed.value}, PQ_FOREVER, nullptr) == PQ_OK, "a push was refused");
    }

    // Whether there was an item, and the item.
    bool pop(std::uint32_t worker, item &first) {
        pq_item it = {0, 0};
        const pq_code code = pq_pop(members_[worker], &it, PQ_FOREVER, nullptr);
        need(code == PQ_OK || code == PQ_EMPTY, "a pop was refused");
        first = {it.priority, it.value};
        return code == PQ_OK;
    }

    // Closes the queue: how many entries its journal has had.
    std::uint64_t lines() {
        for (pq_member *&it : members_) {
            if (it != pq_own(queue_)) {
                pq_give_back(it);
            }
        }
        pq_journal *journal = nullptr;
        need(pq_close(queue_, &journal) == PQ_OK, "the queue was not closed");
        std::uint64_t before = 0;
        const std::uint64_t count = pq_count(journal, &before);
        pq_journal_free(journal);
        return before + count;
    }

private:
    pq_queue *queue_ = nullptr;
    std::vector<pq_member *> members_;
};

#endif
