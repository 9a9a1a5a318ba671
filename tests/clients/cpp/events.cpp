// Event loops: a listener's descriptor is readable from the first, no longer once no item was there, and again where somebody has pushed or the
// queue is shut; that of a listener for what is due, once the first item is due. A member that listens by a callback is notified once.
#include "../check.h"
#include "flatpq_tasks.hpp"

extern "C" {
#include "system_calls.h"
}

#include <atomic>
#include <fcntl.h>
#include <string>
#include <sys/resource.h>
#include <thread>

using namespace std::chrono_literals;
using clock_of = std::chrono::steady_clock;
using flatpq::code;
using flatpq::item;

static void a_descriptor_is_readable_where_an_item_may_be() {
    auto queue = *flatpq::queue<>::open();
    auto listener = *queue.listen();
    const int fd = listener.fd();
    CHECK(is_readable(fd, 0) && listener.take_or_listen().error() == code::empty && !is_readable(fd, 0) && fcntl(fd, F_GETFD) == FD_CLOEXEC);
    CHECK(queue.push(3u, 4) && is_readable(fd, 0));
    // It goes with the listener.
    auto moved = std::move(listener);
    CHECK(listener.fd() == -1 && listener.take_or_listen().error() == code::no_member);
    CHECK(moved.fd() == fd && *moved.take_or_listen() == (item<>{3, 4}) && is_readable(fd, 0));
    CHECK(moved.take_or_listen().error() == code::empty && !is_readable(fd, 0));
    // Above its bound an item stays, and is shown.
    CHECK(queue.push(9u, 1) && is_readable(fd, 0));
    const auto later = moved.take_or_listen(8u);
    CHECK(later.error() == code::not_due && *later.first() == (item<>{9, 1}) && !is_readable(fd, 0));
    CHECK(moved.take_or_listen(9u)->value == 1 && moved.take_or_listen(9u).error() == code::empty && !is_readable(fd, 0));
    CHECK(queue.shut() == code::ok && is_readable(fd, 0) && moved.take_or_listen().error() == code::shut && is_readable(fd, 0));
    { const auto gone = std::move(moved); }
    CHECK(!is_readable(fd, 0) && queue.close());
}

// What comes while it has an item is another's.
static void one_that_is_busy_keeps_no_item() {
    auto queue = *flatpq::queue<>::open();
    auto busy = *queue.listen(), idle = *queue.listen();
    CHECK(busy.take_or_listen().error() == code::empty && idle.take_or_listen().error() == code::empty);
    CHECK(queue.push(1u, 1) && is_readable(busy.fd(), 0) && !is_readable(idle.fd(), 0) && busy.take_or_listen()->value == 1);
    CHECK(queue.push(1u, 2) && is_readable(idle.fd(), 0) && idle.take_or_listen()->value == 2);
}

// One that is assigned has the other's descriptor, and none of its own from before.
static void one_is_assigned() {
    auto queue = *flatpq::queue<>::open();
    auto second = *queue.listen(), other = *queue.listen();
    const int fd = other.fd();
    CHECK(second.take_or_listen().error() == code::empty && other.take_or_listen().error() == code::empty);
    second = std::move(other);
    CHECK(second.fd() == fd && !is_readable(fd, 0) && queue.push(5u, 6) && is_readable(fd, 0) && second.take_or_listen()->value == 6);
}

static void payloads_come_so() {
    auto queue = *flatpq::task_queue<std::string, clock_of::time_point>::open();
    auto listener = *queue.listen();
    const auto start = clock_of::now();
    CHECK(listener.take_or_listen(start).error() == code::empty);
    std::thread pushing([&] {
        CHECK(queue.push(start, "one") && queue.push(start + 20ms, "two"));
    });
    std::string got;
    for (int wait = 60000; got.size() < 6;) {
        CHECK(wait < 60000 || is_readable(listener.fd(), wait));
        auto due = listener.take_or_listen(clock_of::now());
        for (; due; due = listener.take_or_listen(clock_of::now())) {
            CHECK(clock_of::now() >= due->priority);
            got += due->payload;
        }
        if (due.error() == code::not_due) {
            std::this_thread::sleep_until(*due.first());
        }
        wait = due.error() == code::not_due ? 0 : 60000;
    }
    pushing.join();
    CHECK(got == "onetwo");
}

static void a_timer_is_readable_when_the_first_is_due() {
    auto queue = *flatpq::task_queue<std::string, clock_of::time_point>::open();
    flatpq::task_due_listener<std::string, clock_of::time_point> listener = *queue.listen_due();
    const auto first = clock_of::now() + (requests(2) == 1 ? 1500ms : 200ms), last = first + 1h;
    CHECK(fcntl(listener.fd(), F_GETFD) == FD_CLOEXEC);
    CHECK(is_readable(listener.fd(), 60000) && listener.take_or_listen().error() == code::empty && !is_readable(listener.fd(), 0));
    CHECK(queue.push(last, "last") && is_readable(listener.fd(), 60000));
    CHECK(*listener.take_or_listen().first() == last && queue.push(last, "same") && !is_readable(listener.fd(), 10));
    CHECK(queue.push(first, "first") && is_readable(listener.fd(), 60000) && *listener.take_or_listen().first() == first);
    // It goes with the listener, and waits for that time.
    auto moved = std::move(listener);
    CHECK(listener.fd() == -1 && listener.take_or_listen().error() == code::no_member);
    CHECK(is_readable(moved.fd(), 60000) && clock_of::now() >= first && moved.take_or_listen()->payload == "first");
    CHECK(moved.take_or_listen().error() == code::not_due && !is_readable(moved.fd(), 0));
    // A member with a timer of the program.
    auto member = *queue.join();
    CHECK(member.take_due_or_listen(-1).error() == code::no_timer && !member.unlisten());
    const int timer = timerfd_create(CLOCK_MONOTONIC, 0);
    CHECK(*member.take_due_or_listen(timer).first() == last && !is_readable(timer, 0) && queue.shut() == code::ok);
    CHECK(is_readable(timer, 60000) && is_readable(moved.fd(), 60000) && queue.pop()->payload == "last" && queue.pop()->payload == "same");
    CHECK(member.take_due_or_listen(timer).error() == code::shut && moved.take_or_listen().error() == code::shut);
    moved = *flatpq::task_queue<std::string, clock_of::time_point>::open()->listen_due();
    CHECK(is_readable(moved.fd(), 60000) && ::close(timer) == 0);
}

static void a_callback_is_called_once() {
    auto queue = *flatpq::task_queue<int>::open();
    auto member = *queue.join();
    std::atomic<int> calls{0};
    const auto bell = [&calls] { ++calls; };
    CHECK(queue.push(9u, 5) && member.take_or_listen(8u, bell).first() == 9u && member.take_or_listen(9u, bell)->payload == 5);
    CHECK(!member.unlisten() && member.take_or_listen(bell).error() == code::empty && calls == 0);
    std::thread([&queue] { CHECK(queue.push(1u, 7) && queue.push(2u, 8)); }).join();
    CHECK(calls == 1 && !member.unlisten() && member.take_or_listen(bell)->payload == 7 && member.take_or_listen(bell)->payload == 8);
    CHECK(member.take_or_listen(bell).error() == code::empty && member.unlisten() && !member.unlisten());
    CHECK(queue.push(1u, 9) && calls == 1 && queue.take_or_listen(bell)->payload == 9);
    CHECK(queue.take_or_listen(bell).error() == code::empty && queue.shut() == code::ok && calls == 2);
    CHECK(queue.take_or_listen(bell).error() == code::shut);
}

static int rings = 0;

static void rings_once_more() { ++rings; }

static void a_plain_function_is_called() {
    auto queue = *flatpq::queue<>::open();
    auto member = *queue.join();
    CHECK(member.take_or_listen(rings_once_more).error() == code::empty && queue.push(5u, 6) && rings == 1);
    CHECK(member.take_or_listen(4u, rings_once_more).error() == code::not_due && member.unlisten() && rings == 1);
}

// A function of its own: AddressSanitizer doesn't see that a cancelled thread leaves the frames that it is in.
[[gnu::noinline]] static void listens(flatpq::queue<clock_of::time_point> &queue) {
    auto any = *queue.listen();
    auto due = *queue.listen_due();
    CHECK(any.take_or_listen().error() == code::empty && due.take_or_listen().error() == code::empty);
    any = *queue.listen();
}

static void *is_cancelled(void *queue) {
    CHECK(pthread_cancel(pthread_self()) == 0);
    listens(*static_cast<flatpq::queue<clock_of::time_point> *>(queue));
    pthread_testcancel();
    return nullptr;
}

// A thread that is to be cancelled ends its calls first.
static void no_call_is_a_cancellation_point() {
    auto queue = *flatpq::queue<clock_of::time_point>::open();
    CHECK(ended(started(is_cancelled, &queue)) == PTHREAD_CANCELED && queue.close());
}

static flatpq::queue<> *is_left = nullptr;

// Where a descriptor is closed, this queue has a member again.
long __wrap_syscall(long number, ...) {
    long words[6];
    va_list rest;
    va_start(rest, number);
    read_words(rest, words);
    va_end(rest);
    CHECK(number != SYS_close || is_left == nullptr || is_left->join(flatpq::now));
    return __real_syscall(number, words[0], words[1], words[2], words[3], words[4], words[5]);
}

// Else another file would have the number of the descriptor that is written to.
static void a_member_is_given_back_before_its_descriptor() {
    auto queue = *flatpq::queue<>::open({1});
    {
        auto listener = *queue.listen();
        is_left = &queue;
    }
    is_left = nullptr;
}

// Where the system gives no descriptor a listener waits for no member, and says why. Where there is no member it keeps no descriptor.
static void listeners_without_a_descriptor() {
    auto queue = *flatpq::queue<clock_of::time_point>::open({1});
    auto only = *queue.join();
    const int next = dup(0);
    CHECK(close(next) == 0 && queue.listen(flatpq::now).error() == code::all_joined && queue.listen_due(1ms).error() == code::all_joined);
    rlimit all = {};
    CHECK(getrlimit(RLIMIT_NOFILE, &all) == 0);
    const rlimit none = {0, all.rlim_max};
    CHECK(setrlimit(RLIMIT_NOFILE, &none) == 0);
    errno = 0;
    CHECK(queue.listen().error() == code::no_memory && errno == EMFILE);
    errno = 0;
    CHECK(queue.listen_due().error() == code::no_memory && errno == EMFILE);
    only.give_back();
    CHECK(setrlimit(RLIMIT_NOFILE, &all) == 0 && queue.listen(flatpq::now)->fd() == next);
}

int main() {
    listeners_without_a_descriptor();
    a_member_is_given_back_before_its_descriptor();
    a_descriptor_is_readable_where_an_item_may_be();
    one_that_is_busy_keeps_no_item();
    one_is_assigned();
    payloads_come_so();
    a_timer_is_readable_when_the_first_is_due();
    a_callback_is_called_once();
    a_plain_function_is_called();
    no_call_is_a_cancellation_point();
    return 0;
}
