// How many items a queue has, and queues with a bound: a push is refused at once or at its deadline, and its payload stays where it was.
#include "../check.h"
#include "flatpq_tasks.hpp"

#include <memory>
#include <string>
#include <utility>
#include <vector>

using namespace std::chrono_literals;
using flatpq::code;

static void items_are_counted() {
    flatpq::queue<> queue;
    auto member = queue.join().value();
    const auto &read_only = queue;
    CHECK(*read_only.size() == 0 && *member.size(flatpq::now) == 0);
    CHECK(queue.push(5u, 6) && queue.push_many(std::vector<flatpq::item<>>{{1, 2}, {3, 4}}));
    CHECK(*read_only.size() == 3 && *read_only.peak_size() == 3 && *std::as_const(member).size(1h) == 3 && read_only.peek()->value == 2);
    CHECK(member.pop() && *queue.clear() == 2 && *member.size() == 0);
    auto moved = std::move(member);
    CHECK(member.size().error() == code::no_member && member.peak_size().error() == code::no_member && *queue.size() == 0);
}

// The most items at once: pops don't lower it, and a reschedule doesn't raise it.
static void the_peak_stays() {
    flatpq::queue<> queue(flatpq::options().with_tickets());
    auto member = queue.join().value();
    CHECK(*queue.peak_size() == 0 && *member.peak_size(flatpq::now) == 0);
    const auto ticket = queue.push(5u, 6).value();
    CHECK(queue.push(1u, 2) && queue.push(3u, 4) && *queue.peak_size() == 3);
    CHECK(queue.reschedule(ticket, 2u) && *queue.size() == 3 && *member.peak_size(1h) == 3);
    CHECK(queue.pop() && queue.pop() && *queue.peak_size() == 3 && queue.push(1u, 2) && *queue.size() == 2);
    CHECK(*queue.peak_size() == 3 && queue.shut() == code::ok && *member.peak_size() == 3);
}

static void a_full_queue_refuses() {
    flatpq::task_queue<std::string> queue(flatpq::options().with_most_items(1));
    std::string text = "stays";
    CHECK(queue.push(5u, std::string("five")));
    CHECK(queue.push(6u, text, flatpq::now).error() == code::full);
    CHECK(queue.push(6u, std::move(text), flatpq::now).error() == code::full && text == "stays");
    const auto begun = std::chrono::steady_clock::now();
    CHECK(queue.push(6u, std::move(text), 20ms).error() == code::full && text == "stays" && std::chrono::steady_clock::now() - begun >= 20ms);
    std::vector<flatpq::task<std::string>> many;
    many.emplace_back(7u, "seven");
    many.emplace_back(8u, "eight");
    CHECK(*queue.size() == 1 && queue.take()->payload == "five");
    const auto pushed = queue.push_many(many, 20ms);
    CHECK(!pushed && pushed.count == 1 && pushed.number == 3 && pushed.error == code::full);
    CHECK(many[1].payload == "eight" && *queue.size() == 1);
}

static void an_event_loop_waits_for_room() {
    flatpq::task_queue<std::unique_ptr<int>> queue(flatpq::options().with_most_items(1));
    auto listener = queue.listen_room().value();
    auto other = queue.listen_room().value();
    auto refused = std::make_unique<int>(2);
    CHECK(is_readable(listener.fd(), 0) && *listener.push_or_listen(5u, std::make_unique<int>(1)) == 1);
    CHECK(listener.push_or_listen(6u, std::move(refused)).error() == code::full && *refused == 2 && !is_readable(listener.fd(), 0));
    CHECK(other.push_or_listen(7u, std::make_unique<int>(3)).error() == code::full && !is_readable(other.fd(), 0));
    // One is notified of each place. It pushes, or hands that on.
    CHECK(*queue.pop()->payload == 1 && is_readable(listener.fd(), 0) && !is_readable(other.fd(), 0));
    CHECK(listener.push_or_listen(6u, std::move(refused)) && refused == nullptr && !is_readable(listener.fd(), 0));
    CHECK(listener.push_or_listen(6u, nullptr).error() == code::full && queue.pop() && is_readable(other.fd(), 0));
    other.unlisten();
    CHECK(is_readable(listener.fd(), 0));
    { const auto gone = std::move(listener); }
    CHECK(other.push_or_listen(7u, nullptr) && other.push_or_listen(7u, nullptr).error() == code::full && queue.shut() == code::ok);
    CHECK(is_readable(other.fd(), 0) && other.push_or_listen(7u, nullptr).error() == code::shut);
}

static void a_callback_waits_for_room() {
    flatpq::queue<> queue(flatpq::options().with_most_items(1));
    auto member = queue.join().value();
    int calls = 0;
    auto count = [&] { ++calls; };
    CHECK(member.push_or_listen(5u, 1, count) && member.push_or_listen(6u, 2, count).error() == code::full && calls == 0);
    CHECK(queue.pop() && calls == 1 && !member.unlisten());
    CHECK(*member.push_or_listen(6u, 2, count) == 3 && calls == 1);
}

int main() {
    items_are_counted();
    the_peak_stays();
    a_full_queue_refuses();
    an_event_loop_waits_for_room();
    a_callback_waits_for_room();
    return 0;
}
