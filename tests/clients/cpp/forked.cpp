// In children that are forked while threads are busy each call returns code::forked, and what ends there ends without waiting.
#include "../check.h"
#include "flatpq_tasks.hpp"

#include <atomic>
#include <memory>
#include <optional>
#include <sys/wait.h>
#include <thread>
#include <unistd.h>
#include <vector>

using flatpq::code;

struct shared {
    std::optional<flatpq::queue<>> queue{std::in_place, flatpq::options{8}};
    std::optional<flatpq::member<>> own{*queue->join()};
    std::optional<flatpq::listener<>> listener{*queue->listen()};
    flatpq::task_queue<std::unique_ptr<int>> tasks;
};

// The parent's event stays, also where the child calls, and it makes none.
static void a_child_takes_no_event() {
    flatpq::queue<> queue(flatpq::options().with_most_items(1));
    auto room = *queue.listen_room();
    CHECK(queue.push(1u, 1) && room.push_or_listen(2u, 2).error() == code::full);
    for (const bool has_room : {false, true}) {
        CHECK((!has_room || queue.pop()) && is_readable(room.fd(), 0) == has_room);
        int status = 0;
        const pid_t pid = fork();
        if (pid == 0) {
            _exit(room.push_or_listen(2u, 2).error() != code::forked);
        }
        CHECK(pid > 0 && waitpid(pid, &status, 0) == pid && status == 0 && is_readable(room.fd(), 0) == has_room);
    }
}

static void child(shared &it) {
    CHECK(it.queue->push(1u, 1).error() == code::forked && it.own->take().error() == code::forked);
    CHECK(it.queue->join().error() == code::forked && it.queue->close().error() == code::forked && it.queue->shut() == code::forked);
    CHECK(it.listener->take_or_listen().error() == code::forked && it.own->archive(0).error() == code::forked);
    CHECK(flatpq::queue<>::open().error() == code::forked && it.tasks.clear().error() == code::forked);
    auto payload = std::make_unique<int>(7);
    CHECK(it.tasks.push(1u, std::move(payload)).error() == code::forked && *payload == 7);
    it.queue->leave();
    it.listener.reset();
    it.own.reset();
    it.queue.reset();
}

int main() {
    a_child_takes_no_event();
    shared it;
    const int children = static_cast<int>(requests(20));
    std::atomic<bool> is_over{false};
    std::vector<std::thread> threads;
    for (int i = 0; i < 3; ++i) {
        threads.emplace_back([&it, &is_over] {
            while (!is_over) {
                CHECK(it.queue->push(1u, 1) && it.queue->pop() && it.queue->join());
            }
        });
    }
    for (int i = 0; i < children; ++i) {
        const pid_t pid = fork();
        if (pid == 0) {
            alarm(20);
            child(it);
            _exit(0);
        }
        int status = 0;
        CHECK(pid > 0 && waitpid(pid, &status, 0) == pid && WIFEXITED(status) && WEXITSTATUS(status) == 0);
    }
    is_over = true;
    for (auto &thread : threads) {
        thread.join();
    }
    CHECK(it.queue->push(1u, 1) && it.listener->take_or_listen() && it.tasks.push(1u, std::make_unique<int>(1)));
    return 0;
}
