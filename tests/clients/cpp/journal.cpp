// Journals are gone through, written whatever the stream's locale, and copied while the queue runs; memory refuses or forgets. The test prints
// a journal.
#include "../check.h"
#include "flatpq_tasks.hpp"

#include <algorithm>
#include <chrono>
#include <cstdio>
#include <fstream>
#include <iostream>
#include <locale>
#include <sstream>
#include <string>
#include <thread>
#include <utility>
#include <vector>

using flatpq::code;
using flatpq::item;
using flatpq::keeping;
using flatpq::request;

struct grouped : std::numpunct<char> {
    char do_thousands_sep() const override { return '.'; }
    std::string do_grouping() const override { return "\3"; }
};

static const char five_lines[] = "1 0 1 pop empty acff473d\n"
                               "2 0 2 push 5 1000000 pushed 1dfc62d6\n"
                               "3 0 3 push 4000000000 9 pushed 08fc79b1\n"
                               "4 0 4 push 5 0 pushed 1b8ec31c\n"
                               "5 0 5 pop got 5 1000000 2f994eb6\n";

// Writes it by a stream, whatever the locale of that, and by a descriptor; and says so where that fails.
static void is_written(const flatpq::journal<unsigned> &journal) {
    std::ostringstream text;
    text.imbue(std::locale(std::locale::classic(), new grouped));
    CHECK(journal.write(text) == code::ok && text.str() == five_lines);
    std::FILE *made = std::tmpfile();
    char read[sizeof five_lines + 1] = "";
    CHECK(made != nullptr && journal.write(fileno(made)) == code::ok && std::fseek(made, 0, SEEK_SET) == 0);
    CHECK(std::fread(read, 1, sizeof read, made) == sizeof five_lines - 1 && std::string(read) == five_lines && std::fclose(made) == 0);
    std::ofstream full("/dev/full");
    CHECK(full && journal.write(full) == code::not_written && journal.write(-1) == code::not_written);
    std::cout << text.str();
}

static void entries_are_read_and_written() {
    auto queue = *flatpq::queue<unsigned>::open({1, keeping::fills, 1000});
    auto member = *queue.join();
    const std::uint32_t place = member.place();
    CHECK(member.pop().error() == code::empty && member.push(5u, 1000000) && member.push(4000000000u, 9) && member.push(5u, 0));
    CHECK(member.pop() && *member.peek() == (item<unsigned>{5, 0}));
    member.give_back();
    auto journal = *queue.close();
    CHECK(journal.size() == 5 && journal.before() == 0 && !journal.read(5));
    const struct {
        flatpq::request request;
        code reply;
        item<unsigned> of;
    } expected[] = {{request::pop, code::empty, {}},         {request::push, code::ok, {5, 1000000}}, {request::push, code::ok, {4000000000, 9}},
                    {request::push, code::ok, {5, 0}},      {request::pop, code::ok, {5, 1000000}}};
    std::vector<std::thread> threads;
    for (int i = 0; i < 3; ++i) {
        threads.emplace_back([&] {
            std::uint64_t number = 0;
            for (const auto &entry : std::as_const(journal)) {
                const auto &it = expected[number++];
                CHECK(entry.number == number && entry.serial == number && entry.place == place && entry.request == it.request);
                CHECK(entry.reply == it.reply && (it.reply == code::ok ? entry.item == it.of : !entry.item));
            }
            CHECK(number == 5);
        });
    }
    for (auto &thread : threads) {
        thread.join();
    }
    CHECK(place == 0);
    is_written(journal);
    auto moved = std::move(journal);
    CHECK(journal.write(std::cout) == code::no_member && std::cout && journal.write(1) == code::no_member && journal.begin() == journal.end());
    journal = std::move(moved);
    std::vector<item<unsigned>> left;
    for (const auto &it : journal.left()) {
        left.push_back(it);
    }
    CHECK((left == std::vector<item<unsigned>>{{5, 0}, {4000000000, 9}}) && journal.size() == 5 && journal.take().error() == code::empty);
}

static void payloads_show_their_keys() {
    auto queue = *flatpq::task_queue<std::string, double>::open();
    CHECK(*queue.push(2.5, "late") == 1 && *queue.push(-1, "soon") == 2 && queue.pop()->payload == "soon");
    const auto journal = *queue.archive(1);
    CHECK(journal.size() == 2 && journal.before() == 1 && journal.read(0)->item == -1.0 && (*journal.begin()).number == 2);
    CHECK(journal.begin()->number == 2 && *journal.begin()->item == -1.0 && (*journal.begin()++).number == 2);
    CHECK((*std::next(journal.begin())).request == request::pop);
    CHECK(std::all_of(journal.begin(), journal.end(), [](auto it) { return it.item == -1.0; }));
    auto other = *queue.join();
    CHECK(*other.push(3, "first of its member") == 4);
    const auto entry = *queue.archive(3)->read(0);
    CHECK(entry.number == 4 && entry.serial == 1);
}

static void memory_refuses_or_forgets() {
    constexpr std::uint64_t kept = 65540;
    for (const auto keeps : {keeping::refuses, keeping::forgets}) {
        auto queue = *flatpq::queue<>::open({1, keeps, kept});
        for (std::uint64_t i = 0; i < kept; ++i) {
            CHECK(queue.pop().error() == code::empty);
        }
        if (keeps == keeping::refuses) {
            CHECK(queue.pop().error() == code::unarchived && queue.push(1u, 2).error() == code::unarchived);
            CHECK(queue.archive(0)->size() == kept && queue.push(1u, 2).error() == code::unarchived && queue.archive(1)->size() == kept - 1);
        }
        CHECK(*queue.push(1u, 2) == kept + 1 && queue.archive(0).error() == code::forgotten && queue.archive(kept + 1)->size() == 0);
        const auto journal = *queue.close();
        CHECK(journal.size() == kept && journal.before() == 1 && journal.read(0)->number == 2);
    }
}

static void shut_has_an_entry() {
    flatpq::queue<> queue;
    CHECK(queue.push(5u, 7).value() == 1 && queue.shut() == code::ok && queue.shut() == code::ok);
    CHECK(queue.archive(3).error() == code::bad_option);
    const auto journal = queue.archive(0).value();
    CHECK(journal.size() == 2 && journal.read(1)->request == request::shut && journal.read(1)->reply == code::empty && !journal.read(1)->item);
}

// A journal of an earlier version, or of a program in Rattle, has entries of peeks too.
static void shut_and_peek_are_read_back() {
    std::FILE *made = std::tmpfile();
    CHECK(made != nullptr && std::fputs("1 0 1 push 5 7 pushed\n2 0 2 shut\n3 0 3 least least 5 7\n", made) >= 0);
    std::rewind(made);
    auto back = flatpq::journal<>::read_from(fileno(made));
    CHECK(std::fclose(made) == 0 && back && back->size() == 3);
    const auto entry = *back->read(1);
    std::ostringstream text;
    CHECK(entry.request == request::shut && entry.reply == code::empty && !entry.item && entry.ticket == 0 && !entry.priority);
    CHECK(back->write(text) == code::ok && text.str() == "1 0 1 push 5 7 pushed fd6f9793\n2 0 2 shut 858f5e52\n3 0 3 least least 5 7 ad87ca99\n");
    CHECK(back->read(2)->request == request::peek && back->read(2)->item == (item<>{5, 7}));
}

static void is_read_back() {
    const char text[] = "1 0 1 push 5 7 pushed\n2 0 2 push 6 8 pushed\n3 0 3 pop got 5 7\n4 0 4 po";
    const auto file_of = [&](std::size_t length) {
        std::FILE *made = std::tmpfile();
        CHECK(made != nullptr && std::fwrite(text, 1, length, made) == length);
        std::rewind(made);
        return made;
    };
    const auto read = [&](std::size_t length) {
        std::FILE *made = file_of(length);
        auto back = flatpq::journal<unsigned>::read_from(fileno(made));
        std::fclose(made);
        return back;
    };
    auto torn = read(sizeof text - 1);
    CHECK(torn && torn.is_torn() && torn.lines() == 3 && torn.bytes() == sizeof text - 9 && torn->read(2)->request == request::pop);
    CHECK(*torn->take() == (item<unsigned>{6, 8}) && torn->take().error() == code::empty);
    auto whole = read(sizeof text - 9);
    CHECK(whole && !whole.is_torn() && whole.lines() == 3 && whole.bytes() == sizeof text - 9 && whole->size() == 3);
    CHECK(!flatpq::journal<>::read_from(-1) && flatpq::journal<>::read_from(-1).error() == code::not_read);
    std::FILE *made = std::tmpfile();
    CHECK(made != nullptr && std::fputs("1 0 1 pop empty\n1 0 2 pop empty\n", made) >= 0);
    std::rewind(made);
    const auto refused = flatpq::journal<>::read_from(fileno(made));
    CHECK(refused.error() == code::not_lawful && !refused.is_torn() && refused.lines() == 2 && refused.bytes() == 16 && std::fclose(made) == 0);
}

static void waits_until_archived() {
    using namespace std::chrono_literals;
    flatpq::queue<> queue;
    const auto number = *queue.push(1u, 2);
    CHECK(queue.wait_archived(number, flatpq::now) == code::timed_out && queue.wait_archived(number, 1ms) == code::timed_out);
    CHECK(queue.archive(number) && std::as_const(queue).wait_archived(number) == code::ok);
    CHECK(queue.close() && queue.wait_archived(number + 1) == code::closed);
    const auto moved = std::move(queue);
    CHECK(queue.wait_archived(number) == code::no_member);
}

int main() {
    is_read_back();
    shut_has_an_entry();
    shut_and_peek_are_read_back();
    waits_until_archived();
    entries_are_read_and_written();
    payloads_show_their_keys();
    memory_refuses_or_forgets();
    return 0;
}
