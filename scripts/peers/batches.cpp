// Batches: each worker takes the first items out, so many under one lock, and puts as many in that are later, over and over. The queue has
// 1,000 items, and 64 for each worker beside. `batches c-batches|c-calls|std-mutex WORKERS SIZE` prints
// `batches,KIND,WORKERS,SIZE,ITEMS,NANOSECONDS,audit ok`, or `audit failed` as the last field: how many items a worker took out, and how
// long it took for these and as many that it put in. c-calls makes a call for each item; std-mutex is a mutex around a heap and a ring of
// lines.
#include "c_queues.hpp"
#include "load.hpp"
#include "numbers.hpp"

#include <atomic>
#include <cstdint>
#include <mutex>
#include <string>
#include <vector>

class c_batches : public c_queue {
public:
    explicit c_batches(std::uint32_t workers) : c_queue(workers) {}

    void push_many(std::uint32_t worker, const std::vector<item> &pushed) {
        std::size_t done = 0;
        copies_of(pushed);
        need(pq_push_many(member(worker), room().data(), pushed.size(), PQ_FOREVER, &done, nullptr) == PQ_OK, "a push was refused");
    }

    void pop_many(std::uint32_t worker, std::size_t most, std::vector<item> &popped) {
        std::size_t done = 0;
        room().resize(most);
        const pq_code code = pq_pop_due_many(member(worker), UINT64_MAX, room().data(), most, PQ_FOREVER, &done, nullptr);
        need(code == PQ_OK || code == PQ_EMPTY, "a pop was refused");
        popped.clear();
        for (std::size_t i = 0; i < done; ++i) {
            popped.push_back({room()[i].priority, room()[i].value});
        }
    }

private:
    static std::vector<pq_item> &room() {
        static thread_local std::vector<pq_item> it;
        return it;
    }
    static void copies_of(const std::vector<item> &pushed) {
        room().clear();
        for (const item &it : pushed) {
            room().push_back({it.priority, it.value});
        }
    }
};

class c_calls : public c_queue {
public:
    explicit c_calls(std::uint32_t workers) : c_queue(workers) {}

    void push_many(std::uint32_t worker, const std::vector<item> &pushed) {
        for (const item &it : pushed) {
            push(worker, it);
        }
    }

    void pop_many(std::uint32_t worker, std::size_t most, std::vector<item> &popped) {
        popped.clear();
        item it;
        while (popped.size() < most && pop(worker, it)) {
            popped.push_back(it);
        }
    }
};

template <class Queue> static int run(const char *kind, std::uint64_t workers, std::uint64_t size) {
    const std::uint64_t items = 200000, later = 1 << 20;
    Queue shared(static_cast<std::uint32_t>(workers));
    std::vector<item> first(1000 + 64 * workers);
    for (std::size_t i = 0; i < first.size(); ++i) {
        first[i] = {i * later / first.size(), i};
    }
    shared.push_many(0, first);
    std::atomic<std::uint64_t> took{0};
    std::atomic<std::uint64_t> moved{0};
    run_at_once(static_cast<std::uint32_t>(workers), [&](std::uint32_t worker) {
        return [&, worker] {
            numbers any(worker);
            std::vector<item> some;
            std::uint64_t own = 0;
            const std::uint64_t began = nanoseconds_now();
            while (own < items) {
                shared.pop_many(worker, size, some);
                own += some.size();
                for (item &it : some) {
                    it.priority += any.below(later);
                }
                shared.push_many(worker, some);
            }
            took += nanoseconds_now() - began;
            moved += own;
        };
    });
    const std::uint64_t figures[] = {workers, size, moved / workers, took / workers};
    const std::uint64_t lines = shared.lines();
    return print_figures("batches", kind, figures, lines == first.size() + 2 * moved);
}

int main(int argc, char **argv) {
    std::uint64_t workers = 0;
    std::uint64_t size = 0;
    const std::string kind = argc < 2 ? "" : argv[1];
    if (argc == 4 && read_number(argv[2], 1, 64, workers) && read_number(argv[3], 1, 64, size)) {
        if (kind == "c-batches") {
            return run<c_batches>(argv[1], workers, size);
        }
        if (kind == "c-calls") {
            return run<c_calls>(argv[1], workers, size);
        }
        if (kind == "std-mutex") {
            return run<locked<std::mutex, std_heap>>(argv[1], workers, size);
        }
    }
    std::fputs("usage: batches c-batches|c-calls|std-mutex WORKERS SIZE\n", stderr);
    return 2;
}
