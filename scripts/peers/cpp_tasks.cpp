// Unverified C++, to measure queues of payloads: flatpq::task_queue, by members, and a std::mutex round std::priority_queue, both of
// std::function<void()>. `cpp_tasks queue|mutex WORKERS PUSHES POPS` has each worker push so many functions and pop so many,
// each of which it calls, and prints the fields that `c_queue` prints: `cpp-tasks,WORKERS,CALLS,NANOSECONDS,..`, or
// `cpp-functions,WORKERS,..`.
#include "flatpq_tasks.hpp"
#include "load.hpp"

#include <cstdint>
#include <functional>
#include <mutex>
#include <optional>
#include <queue>
#include <string>
#include <utility>
#include <vector>

using function = std::function<void()>;

// The priorities of the functions that a thread has called, added up.
static thread_local std::uint64_t called;

static function function_of(std::uint32_t priority) {
    return [priority] { called += priority; };
}

// Members of a task_queue.
class tasks {
public:
    using worker = flatpq::task_member<function>;

    explicit tasks(const load &) {}

    worker join() { return queue_.join().value(); }

    static void push(worker &by, std::uint32_t priority) { (void)by.push(priority, function_of(priority)).value(); }

    static std::optional<function> pop(worker &by) {
        auto first = by.pop();
        return first ? std::optional<function>(std::move(first->payload)) : std::nullopt;
    }

    // Calls what is left, and returns how many functions that were.
    std::uint64_t call_all() {
        auto journal = queue_.close().value();
        std::uint64_t left = 0;
        for (auto it = journal.take(); it; it = journal.take()) {
            it->payload();
            ++left;
        }
        return left;
    }

private:
    flatpq::task_queue<function> queue_;
};

// A heap behind a mutex.
class locked {
public:
    using worker = locked *;

    explicit locked(const load &of) {
        std::vector<entry> entries;
        entries.reserve(std::size_t{of.workers} * of.pushes);
        heap_ = heap(comes_later(), std::move(entries));
    }

    worker join() { return this; }

    static void push(worker by, std::uint32_t priority) {
        function payload = function_of(priority);
        const std::lock_guard<std::mutex> held(by->lock_);
        by->heap_.push({priority, ++by->pushes_, std::move(payload)});
    }

    static std::optional<function> pop(worker by) {
        const std::lock_guard<std::mutex> held(by->lock_);
        return by->taken();
    }

    std::uint64_t call_all() {
        std::uint64_t left = 0;
        for (auto it = taken(); it; it = taken()) {
            (*it)();
            ++left;
        }
        return left;
    }

private:
    struct entry {
        std::uint32_t priority;
        std::uint64_t number;
        function payload;
    };

    // The first out is the one of the least priority, and of equal ones the one pushed first.
    struct comes_later {
        bool operator()(const entry &a, const entry &b) const noexcept {
            return a.priority != b.priority ? a.priority > b.priority : a.number > b.number;
        }
    };

    using heap = std::priority_queue<entry, std::vector<entry>, comes_later>;

    std::optional<function> taken() {
        if (heap_.empty()) {
            return std::nullopt;
        }
        // The order doesn't look at the payload, and the entry goes at once.
        std::optional<function> first(std::move(const_cast<entry &>(heap_.top()).payload));
        heap_.pop();
        return first;
    }

    std::mutex lock_;
    heap heap_;
    std::uint64_t pushes_ = 0;
};

template <class Queue> int run(const char *kind, const load &of) {
    worked *const did = room_for(&of);
    Queue shared(of);
    const auto call_of = [&shared, &of](std::uint32_t worker) {
        return [by = shared.join(), &of, worker](std::uint32_t number, worked &made) mutable {
            if (number < of.pushes) {
                Queue::push(by, priority_of(worker, number));
            } else if (const auto payload = Queue::pop(by)) {
                (*payload)();
                made.sum = called;
            }
        };
    };
    if (!run_in_threads(of, did, call_of)) {
        return 1;
    }
    const std::uint64_t left = shared.call_all();
    return tell(kind, &of, did, called, 0, left == std::uint64_t{of.workers} * (of.pushes - of.pops));
}

int main(int argc, char **argv) {
    load of = {};
    const std::string kind = argc < 2 ? "" : argv[1];
    if ((kind != "queue" && kind != "mutex") || !read_load(argv + 2, &of)) {
        std::fputs("usage: cpp_tasks queue|mutex WORKERS PUSHES POPS\n", stderr);
        return 2;
    }
    return kind == "queue" ? run<tasks>("cpp-tasks", of) : run<locked>("cpp-functions", of);
}
