// Removals and moves by ticket: each payload stays where it is while it is moved, comes back once and is dropped once.
#include "../check.h"
#include "flatpq_tasks.hpp"

#include <chrono>
#include <memory>
#include <utility>

using flatpq::code;

constexpr auto with_tickets = flatpq::options().with_tickets();

static void payloads_come_back_once() {
    const auto counted = std::make_shared<int>(5);
    {
        flatpq::task_queue<std::shared_ptr<int>> queue(with_tickets);
        const auto first = queue.push(5u, std::shared_ptr<int>(counted)).value();
        const auto second = queue.push(6u, std::shared_ptr<int>(counted)).value();
        const auto third = queue.push(7u, std::shared_ptr<int>(counted)).value();
        CHECK(queue.push(8u, std::shared_ptr<int>(counted)) && counted.use_count() == 5);
        {
            auto removed = queue.remove(second);
            CHECK(removed && removed->priority == 6 && *removed->payload == 5 && removed.number() == 5 && counted.use_count() == 5);
        }
        CHECK(counted.use_count() == 4 && queue.remove(second).error() == code::gone && queue.pop()->priority == 5);
        CHECK(queue.remove(first, flatpq::now).error() == code::gone && queue.reschedule(first, 1u).error() == code::gone);
        const auto last = queue.reschedule(third, 9u).value();
        CHECK(last > third && queue.reschedule(third, 1u).error() == code::gone && counted.use_count() == 3 && queue.pop()->priority == 8);
        CHECK(*queue.peek() == 9 && queue.reschedule(last, 10u, flatpq::now) && *queue.clear() == 1 && counted.use_count() == 1);
        CHECK(queue.remove(last).error() == code::gone && queue.push(9u, std::shared_ptr<int>(counted)));
    }
    CHECK(counted.use_count() == 1);
    flatpq::task_queue<std::shared_ptr<int>> without;
    const auto ticket = without.push(5u, std::shared_ptr<int>(counted)).value();
    CHECK(without.remove(ticket).error() == code::no_tickets && without.reschedule(ticket, 1u).error() == code::no_tickets);
    auto moved_from = std::move(without);
    CHECK(without.reschedule(ticket, 1u).error() == code::no_member && *moved_from.size() == 1);
}

static void a_timer_is_set_anew() {
    using clock = std::chrono::steady_clock;
    flatpq::queue<clock::time_point> timers(with_tickets);
    const auto soon = clock::now() + std::chrono::milliseconds(5), later = clock::now() + std::chrono::hours(1);
    const auto first = timers.push(soon, 1).value(), second = timers.push(later, 2).value();
    CHECK(timers.reschedule(first, later) && timers.take_due(std::chrono::milliseconds(10)).error() == code::not_due);
    CHECK(timers.reschedule(second, soon) && timers.take_due()->value == 2 && *timers.size() == 1);
}

static void journals_show_both() {
    flatpq::queue<int> queue(with_tickets);
    const auto ticket = queue.push(5, 6).value(), moved = queue.reschedule(ticket, -7).value();
    CHECK(queue.remove(moved) && queue.reschedule(moved, 8).error() == code::gone);
    const auto journal = queue.close().value();
    const auto move = journal.read(1), removal = journal.read(2), none = journal.read(3);
    CHECK(move && move->request == flatpq::request::reschedule && move->ticket == ticket && move->item == flatpq::item<int>(5, 6));
    CHECK(move->priority == -7 && move->number == moved);
    CHECK(removal && removal->request == flatpq::request::remove && removal->ticket == moved && removal->item == flatpq::item<int>(-7, 6));
    CHECK(!removal->priority && none && none->reply == code::empty && none->priority == 8 && !none->item);
}

int main() {
    payloads_come_back_once();
    a_timer_is_set_anew();
    journals_show_both();
}
