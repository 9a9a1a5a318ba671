// Two threads of an io_context of asio run the jobs of a queue, beside all else that the loop does. It is built where asio is installed.
#include "flatpq_tasks.hpp"

#include <asio.hpp>

#include <atomic>
#include <chrono>
#include <functional>
#include <system_error>
#include <thread>

using jobs = flatpq::task_queue<std::function<void()>>;

class runner {
    jobs::listener listener;
    asio::posix::stream_descriptor readable;

public:
    runner(asio::io_context &loop, jobs &queue) : listener(queue.listen().value()), readable(make_strand(loop), listener.fd()) {}
    ~runner() { readable.release(); } // the listener closes its descriptor itself

    void run() {
        auto job = listener.take_or_listen();
        for (; job; job = listener.take_or_listen()) {
            job->payload();
        }
        if (job.error() == flatpq::code::empty) {
            readable.async_wait(readable.wait_read, [this](std::error_code failed) {
                if (!failed) {
                    run();
                }
            });
        } else if (job.error() != flatpq::code::shut) {
            throw flatpq::error(job.error());
        }
    }
};

static void run_all(jobs &queue) {
    asio::io_context loop;
    runner one(loop, queue), other(loop, queue);
    one.run();
    other.run();
    std::thread beside([&loop] { loop.run(); });
    loop.run();
    beside.join();
}

int main() {
    const unsigned last = 1000;
    std::atomic<unsigned> sum{0};
    jobs queue;
    std::thread runs([&queue] { run_all(queue); });
    for (unsigned number = 1; number <= last; number++) {
        queue.push(number % 3, [&sum, number] { sum += number; }).value();
        // Now and then the loop runs out of jobs, and sleeps.
        if (number % 50 == 0) {
            std::this_thread::sleep_for(std::chrono::microseconds(300));
        }
    }
    queue.shut();
    runs.join();
    return sum == last * (last + 1) / 2 ? 0 : 1;
}
