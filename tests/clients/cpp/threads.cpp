// A hundred threads call a queue of eight members themselves: each item comes out once, whichever call takes it. Jobs push jobs. A shut queue ends
// all waits.
#include "../check.h"
#include "flatpq_tasks.hpp"

#include <algorithm>
#include <atomic>
#include <future>
#include <memory>
#include <thread>
#include <vector>

using namespace std::chrono_literals;
using flatpq::code;

template <class Work> static void run(std::uint32_t count, Work work) {
    std::vector<std::thread> threads;
    for (std::uint32_t i = 0; i < count; ++i) {
        threads.emplace_back(work, i);
    }
    for (auto &thread : threads) {
        thread.join();
    }
}

static void each_item_comes_out_once() {
    constexpr std::uint32_t threads = 100;
    const std::uint32_t each = requests(200);
    flatpq::task_queue<std::unique_ptr<std::uint32_t>> queue({8, flatpq::keeping::forgets, 65536});
    std::vector<std::atomic<int>> seen(threads * each);
    run(threads, [&](std::uint32_t thread) {
        for (std::uint32_t i = 0; i < each; ++i) {
            CHECK(queue.push(i % 7, std::make_unique<std::uint32_t>(thread * each + i)));
            const auto first = i % 3 == 0 ? queue.pop(1h) : i % 3 == 1 ? queue.pop() : queue.take(1h);
            CHECK(first);
            ++seen[*first->payload];
        }
        if (thread % 2 == 0) {
            queue.leave();
        }
    });
    CHECK(std::all_of(seen.begin(), seen.end(), [](const std::atomic<int> &count) { return count == 1; }));
    CHECK(queue.close()->size() == 2ull * threads * each);
}

// No payload is lost where a queue is shut while threads push and take.
static void a_shut_queue_ends_all_waits(std::chrono::milliseconds a_while) {
    flatpq::task_queue<std::unique_ptr<int>> queue({8});
    std::atomic<long> pushed{0}, taken{0};
    std::thread shuts([&] {
        std::this_thread::sleep_for(a_while);
        CHECK(!queue.is_shut() && queue.shut() == code::ok && queue.is_shut());
    });
    run(7, [&](std::uint32_t side) {
        if (side % 2 == 0) {
            auto payload = std::make_unique<int>(1);
            while (queue.push(side, std::move(payload))) {
                ++pushed;
                payload = std::make_unique<int>(1);
                std::this_thread::yield();
            }
            CHECK(payload && *payload == 1 && queue.push(side, std::move(payload)).error() == code::shut);
        } else {
            auto first = queue.take();
            for (; first; first = queue.take()) {
                taken += *first->payload;
            }
            CHECK(first.error() == code::shut);
        }
    });
    shuts.join();
    CHECK(pushed == taken && queue.close()->take().error() == code::empty);
}

// Jobs push others, as handlers of an event loop do, and more threads wait for them than there are members. The last job shuts the queue.
static void jobs_push_jobs() {
    using job = std::packaged_task<void()>;
    const int jobs = static_cast<int>(requests(1000));
    flatpq::task_queue<job, int> queue({4});
    std::atomic<int> ran{0};
    const auto ends = [&] { CHECK(++ran < jobs || queue.shut() == code::ok); };
    for (int i = 0; i < jobs; ++i) {
        CHECK(queue.push(-i % 7, job([&, i] { CHECK(queue.push(-i % 5, job([&ends, own = std::make_unique<int>(i)] { ends(); }))); })));
    }
    run(80, [&](std::uint32_t) {
        while (auto first = queue.take()) {
            first->payload();
        }
    });
    CHECK(ran == jobs);
}

int main() {
    each_item_comes_out_once();
    jobs_push_jobs();
    for (int i = 0; i < 5; ++i) {
        a_shut_queue_ends_all_waits(std::chrono::milliseconds(i));
    }
    return 0;
}
