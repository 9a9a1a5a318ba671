// A pipeline: as many producers as consumers hand so many items on, of which at most 1,024 wait at once. `pipeline KIND WORKERS ITEMS`
// prints `pipeline,KIND,WORKERS,ITEMS,NANOSECONDS,audit ok`, or `audit failed` as the last field. Kinds: c-queue, a queue whose number of
// items is bounded; and std-conditions, a std::mutex with two condition variables around std::priority_queue.
#include "c_queues.hpp"
#include "load.hpp"
#include "numbers.hpp"

#include <atomic>
#include <condition_variable>
#include <cstdint>
#include <mutex>
#include <string>

static const std::uint64_t most_items = 1024;

class bounded_queue {
public:
    bounded_queue() {
        pq_options options = {};
        options.most_items = most_items;
        need(pq_open(&options, &queue_) == PQ_OK, "no queue was opened");
    }
    bounded_queue(const bounded_queue &) = delete;
    bounded_queue &operator=(const bounded_queue &) = delete;
    ~bounded_queue() { pq_free(queue_, nullptr, nullptr); }

    void push(item it) { need(pq_push(pq_own(queue_), {it.priority, it.value}, PQ_FOREVER, nullptr) == PQ_OK, "a push was refused"); }

    // Waits for an item: whether one came before the end.
    bool take(item &it) {
        pq_item first;
        if (pq_take(pq_own(queue_), &first, PQ_FOREVER, nullptr) != PQ_OK) {
            return false;
        }
        it = {first.priority, first.value};
        return true;
    }
    void end() { pq_shut(queue_); }

private:
    pq_queue *queue_ = nullptr;
};

class bounded_heap {
public:
    void push(item it) {
        std::unique_lock<std::mutex> held(lock_);
        has_room_.wait(held, [this] { return count_ < most_items; });
        heap_.push({it, calls_++});
        ++count_;
        has_item_.notify_one();
    }
    bool take(item &it) {
        std::unique_lock<std::mutex> held(lock_);
        has_item_.wait(held, [this] { return count_ > 0 || is_shut_; });
        if (count_ == 0) {
            return false;
        }
        it = heap_.pop().kept;
        --count_;
        has_room_.notify_one();
        return true;
    }
    void end() {
        const std::lock_guard<std::mutex> held(lock_);
        is_shut_ = true;
        has_item_.notify_all();
    }

private:
    std::mutex lock_;
    std::condition_variable has_room_, has_item_;
    std_heap heap_;
    std::uint64_t calls_ = 0, count_ = 0;
    bool is_shut_ = false;
};

template <class Queue> static int run(const char *kind, std::uint64_t workers, std::uint64_t items) {
    Queue shared;
    std::atomic<std::uint64_t> pushing{workers};
    std::atomic<std::uint64_t> sum{0};
    const std::uint64_t began = nanoseconds_now();
    run_at_once(static_cast<std::uint32_t>(2 * workers), [&](std::uint32_t worker) {
        return [&, worker] {
            if (worker < workers) {
                numbers any(worker);
                for (std::uint64_t i = worker; i < items; i += workers) {
                    shared.push({any.below(1 << 20), i});
                }
                if (--pushing == 0) {
                    shared.end();
                }
            } else {
                item it;
                std::uint64_t own = 0;
                while (shared.take(it)) {
                    own += it.value;
                }
                sum += own;
            }
        };
    });
    const std::uint64_t figures[] = {workers, items, nanoseconds_now() - began};
    return print_figures("pipeline", kind, figures, sum == items * (items - 1) / 2);
}

int main(int argc, char **argv) {
    std::uint64_t workers = 0;
    std::uint64_t items = 0;
    const std::string kind = argc < 2 ? "" : argv[1];
    if (argc == 4 && read_number(argv[2], 1, 32, workers) && read_number(argv[3], 1, 100000000, items)) {
        if (kind == "c-queue") {
            return run<bounded_queue>(argv[1], workers, items);
        }
        if (kind == "std-conditions") {
            return run<bounded_heap>(argv[1], workers, items);
        }
    }
    std::fputs("usage: pipeline c-queue|std-conditions WORKERS ITEMS\n", stderr);
    return 2;
}
