// Payloads are moved once in and once out, and dropped once, whatever way they go. A refused one is where it was.
#include "../check.h"
#include "flatpq_tasks.hpp"

#include <array>
#include <cstring>
#include <functional>
#include <iterator>
#include <map>
#include <memory>
#include <new>
#include <sstream>
#include <string>
#include <vector>

using namespace std::chrono_literals;
using flatpq::code;
using flatpq::keeping;

static int live = 0, moves = 0;

/// A payload that is counted while it has a number: until it is dropped, or moved from.
class counted {
public:
    explicit counted(int number) noexcept : number_(number) { ++live; }
    counted(counted &&other) noexcept : number_(std::exchange(other.number_, none)) { ++moves; }
    counted &operator=(counted &&other) noexcept {
        live -= number_ != none;
        number_ = std::exchange(other.number_, none);
        ++moves;
        return *this;
    }
    ~counted() { live -= number_ != none; }
    [[nodiscard]] int number() const noexcept { return number_; }

private:
    static constexpr int none = -1;
    int number_;
};
static_assert(!flatpq::detail::lies_in_value<counted>);

using tasks = flatpq::task_queue<counted, int>;
using task = flatpq::task<counted, int>;

static tasks opened_for(std::uint32_t members) { return *tasks::open({members}); }

// Puts the payloads of these keys in, and takes the first out.
template <class To> static void push_keys(To &to, int from, int end) {
    for (; from < end; ++from) {
        CHECK(to.push(from, counted(from)));
    }
}
template <class From> static int popped(From &from) { return from.pop()->payload.number(); }

static void each_is_moved_once_in_and_once_out() {
    auto queue = opened_for(2);
    auto member = *queue.join();
    counted payload(7);
    moves = 0;
    CHECK(queue.push(1, std::move(payload)) && moves == 1 && live == 1 && payload.number() == -1);
    const auto got = member.pop();
    CHECK(moves == 2 && live == 1 && got->payload.number() == 7 && got->priority == 1 && got.number() == 2);
    CHECK(queue.push(2, counted(8)) && *queue.peek() == 2 && *member.peek() == 2);
    CHECK(member.pop_due(1).first() == 2 && member.pop_due(2)->payload.number() == 8 && member.pop_due(2).error() == code::empty);
    CHECK(queue.push(3, counted(9)) && member.take(1h)->payload.number() == 9);
}

// The batches are larger than those that go under one lock.
static void a_batch_moves_each_once_in_and_once_out() {
    constexpr int count = 150;
    auto queue = opened_for(1);
    std::vector<task> batch;
    batch.reserve(count);
    for (int key = 0; key < count; ++key) {
        batch.emplace_back(key, counted(key));
    }
    moves = 0;
    const auto pushed = queue.push_many(batch);
    CHECK(pushed.count == count && pushed.number == 1 && moves == count && live == count);
    const auto few = queue.pop_due_many(9, count);
    CHECK(few->size() == 10 && few.number() == count + 1 && moves == count + 10 && live == count);
    const auto others = queue.pop_due_many(count, 2 * count);
    CHECK(others->size() == count - 10 && others.number() == count + 11 && moves == 2 * count && live == count);
    for (int key = 0; key < count; ++key) {
        const auto &it = key < 10 ? (*few)[static_cast<std::size_t>(key)] : (*others)[static_cast<std::size_t>(key - 10)];
        CHECK(it.payload.number() == key && batch[static_cast<std::size_t>(key)].payload.number() == -1);
    }
}

// A push that is refused so: the payload is where it was.
template <class To> static void is_refused(To &to, code why, flatpq::deadline until = {}) {
    counted payload(7);
    const int before = live;
    CHECK(to.push(1, std::move(payload), until).error() == why && payload.number() == 7 && live == before);
}

static void a_refused_one_is_where_it_was() {
    auto queue = *tasks::open({1, keeping::fills, 5});
    auto member = *queue.join();
    is_refused(queue, code::timed_out, 5ms);
    push_keys(member, 0, 3);
    CHECK(queue.shut() == code::ok);
    is_refused(member, code::shut);
    CHECK(*member.peek() == 0 && member.pop()->payload.number() == 0);
    is_refused(member, code::journal_full);
    auto moved = std::move(member);
    is_refused(member, code::no_member);
    moved.give_back();
    CHECK(queue.clear().error() == code::journal_full && *queue.peek() == 1 && live == 2);
    auto journal = *queue.close();
    is_refused(queue, code::closed);
    CHECK(journal.take()->payload.number() == 1);
    CHECK(live == 1);
}

/// One from which another is made.
struct base {
    virtual ~base() = default;
};
struct derived : base {};

// One that is made for the push from an argument of another type is dropped.
static void a_refused_one_of_another_type_is_dropped() {
    auto queue = *flatpq::task_queue<std::unique_ptr<base>>::open();
    auto payload = std::make_unique<derived>();
    CHECK(queue.shut() == code::ok && queue.push(1u, std::move(payload)).error() == code::shut && payload == nullptr);
}

/// A payload that is not copied while it refuses to.
struct uncopied {
    explicit uncopied(bool refuses) : refuses_to(refuses) {}
    uncopied(const uncopied &other) : refuses_to(other.refuses_to) {
        if (refuses_to) {
            throw 7;
        }
    }
    uncopied(uncopied &&other) noexcept : refuses_to(other.refuses_to) {}
    bool refuses_to;
};

static void a_copy_is_pushed_or_nothing() {
    auto queue = *flatpq::task_queue<uncopied>::open();
    uncopied payload(true);
    try {
        static_cast<void>(queue.push(1u, payload));
        CHECK(false);
    } catch (int) {
    }
    CHECK(queue.pop().error() == code::empty);
    payload.refuses_to = false;
    CHECK(queue.push(1u, payload) && !queue.pop()->payload.refuses_to);
}

static void what_is_left_is_dropped() {
    {
        auto queue = opened_for(2);
        push_keys(queue, 0, 3);
        CHECK(popped(queue) == 0 && live == 2 && *queue.clear() == 2 && live == 0 && *queue.clear() == 0);
        push_keys(queue, 0, 3);
    }
    CHECK(live == 0);
    std::optional<flatpq::task_member<counted, int>> last;
    {
        auto queue = opened_for(2);
        last.emplace(*queue.join());
        push_keys(queue, 0, 3);
        CHECK(queue.close().error() == code::members_left && live == 3);
    }
    CHECK(live == 3 && popped(*last) == 0);
    last.reset();
    CHECK(live == 0);
    auto first = opened_for(1), second = opened_for(1);
    push_keys(first, 0, 3);
    push_keys(second, 0, 4);
    // An archive has no payloads.
    CHECK(first.archive(0)->size() == 3 && live == 7);
    auto journal = *first.close();
    auto moved = std::move(journal);
    CHECK(journal.take().error() == code::empty && journal.size() == 0 && moved.size() == 3);
    moved = *second.close();
    CHECK(live == 4 && moved.size() == 4 && moved.take()->payload.number() == 0);
    int next = 1;
    for (auto &it : moved.left()) {
        CHECK(it.priority == next && it.payload.number() == next);
        if (++next == 3) {
            break;
        }
    }
    CHECK(live == 1);
    { const auto gone = std::move(moved); }
    CHECK(live == 0);
}

static void batches_keep_what_is_refused() {
    constexpr int room = 100, count = 150;
    auto queue = *tasks::open({1, keeping::fills, room});
    std::vector<task> batch;
    for (int key = 0; key < count; ++key) {
        batch.emplace_back(key, key);
    }
    const auto done = queue.push_many(batch);
    CHECK(!done && done.error == code::journal_full && done.count == room && done.number == 1);
    const auto none = queue.push_many(batch);
    CHECK(!none && none.error == code::journal_full && none.count == 0 && none.number == 0);
    for (int key = 0; key < count; ++key) {
        CHECK(batch[static_cast<std::size_t>(key)].payload.number() == (key < room ? -1 : key));
    }
    CHECK(live == count && queue.pop_due_many(1, 10).error() == code::journal_full);
}

static void a_batch_may_have_pairs() {
    constexpr int room = 3;
    auto queue = *tasks::open({1, keeping::fills, room});
    std::map<int, counted> batch;
    for (int key = 0; key < 2 * room; ++key) {
        batch.emplace(key, key);
    }
    const auto done = queue.push_many(batch);
    CHECK(done.error == code::journal_full && done.count == room && live == 2 * room);
    for (const auto &[key, payload] : batch) {
        CHECK(payload.number() == (key < room ? -1 : key));
    }
    auto journal = *queue.close();
    CHECK(journal.take()->payload.number() == 0);
    CHECK(live == 2 * room - 1);
}

static void batches_come_out_in_order() {
    auto queue = opened_for(1);
    std::array<task, 2> few = {task(-2, 2), task(-1, 1)};
    CHECK(queue.push_many(few).count == 2 && queue.push_many(few, flatpq::now));
    CHECK(*queue.clear() == 4 && live == 0);
    push_keys(queue, 0, 200);
    const auto none = queue.pop_due_many(-1, 10);
    CHECK(none.error() == code::not_due && none.first() == 0 && none.number() == 0);
    const auto nothing = queue.pop_due_many(9, 0);
    CHECK(nothing->empty() && nothing.number() == 0);
    const auto batch = queue.pop_due_many(149, 1000, 1h);
    CHECK(batch && batch->size() == 150 && live == 200);
    for (int key = 0; key < 150; ++key) {
        CHECK((*batch)[static_cast<std::size_t>(key)].payload.number() == key);
    }
    const auto five = queue.pop_due_many(1000, 5);
    CHECK(five->size() == 5 && batch.number() + 150 == five.number());
    int next = 155;
    const std::uint64_t before = five.number() + 5;
    auto due = queue.drain(169);
    CHECK(due.number() == 0);
    for (auto &it : due) {
        CHECK(it.priority == next && it.payload.number() == next && due.number() == before + static_cast<std::uint64_t>(next - 155));
        ++next;
    }
    CHECK(next == 170 && due.error() == code::not_due && due.number() == 0);
    auto all = queue.drain();
    for (auto at = all.begin(); at != all.end(); at++) {
        CHECK(at->priority == next++);
    }
    CHECK(next == 200 && all.error() == code::empty && queue.pop_due_many(0, 5).error() == code::empty);
    // As many as go under one lock, and no more.
    push_keys(queue, 0, 64);
    CHECK(queue.pop_due_many(99, 100)->size() == 64);
}

static void a_loop_takes_no_item_that_it_does_not_read() {
    auto queue = opened_for(1);
    push_keys(queue, 0, 5);
    auto all = queue.drain();
    auto at = all.begin();
    for (int key = 0; key < 3; ++key, ++at) {
        CHECK(at->priority == key && at->payload.number() == key);
    }
    CHECK(all.error() == code::ok && all.number() == 0 && *queue.size() == 2 && live == 2);
    push_keys(queue, 5, 6);
    for (int key = 3; at != all.end(); ++at, ++key) {
        CHECK(at->priority == key && (*at).payload.number() == key);
    }
    CHECK(all.error() == code::empty && live == 0);
    push_keys(queue, 0, 2);
    auto journal = *queue.close();
    auto left = journal.left();
    auto first = left.begin();
    CHECK(first->priority == 0);
    ++first;
    CHECK(live == 1 && journal.take()->priority == 1);
}

// An item that came, and that nobody read, is the next one.
static void an_item_that_is_not_read_stays() {
    auto queue = opened_for(1);
    push_keys(queue, 0, 7);
    auto all = queue.drain();
    CHECK(all.begin() != all.end() && all.begin() != all.end() && *queue.size() == 6 && live == 7);
    for (auto &it : all) {
        CHECK(it.priority == 0);
        break;
    }
    CHECK(all.begin() != all.end() && *queue.size() == 5 && live == 6);
    auto at = all.begin();
    const task second = *at++;
    CHECK(second.priority == 1 && second.payload.number() == 1 && at->priority == 2 && live == 6);
    CHECK((*at++).payload.number() == 2 && (*std::next(at)).payload.number() == 4);
    CHECK(live == 4 && std::distance(all.begin(), all.end()) == 2 && all.error() == code::empty);
    push_keys(queue, 0, 1);
    CHECK(all.begin() != all.end() && all.begin()->priority == 0);
}

// A drain that is moved takes along the item that it is at, read or not; the other takes the next one.
static void a_moved_drain_loses_no_item() {
    auto queue = opened_for(1);
    push_keys(queue, 0, 6);
    auto first = queue.drain();
    CHECK(first.begin()->priority == 0 && live == 6);
    auto second = std::move(first);
    CHECK(live == 6 && second.number() == 7 && first.number() == 0 && second.begin()->priority == 1 && live == 5);
    auto &same = second;
    second = std::move(same);
    CHECK(live == 5 && second.number() == 8);
    CHECK(first.begin() != first.end() && *queue.size() == 3);
    auto third = std::move(first);
    CHECK(third.begin()->priority == 2 && first.begin()->priority == 3 && live == 5);
    third = std::move(first);
    CHECK(live == 4 && third.begin()->priority == 4 && first.begin()->priority == 5 && first.error() == code::ok && live == 3);
    third = std::move(first);
    CHECK(live == 2 && third.begin() == third.end() && third.error() == code::empty && live == 1);
    CHECK(first.error() == code::ok && first.begin() == first.end());
    // Its own item is dropped.
    push_keys(queue, 0, 1);
    CHECK(third.begin()->priority == 0 && live == 2);
    third = queue.drain();
    CHECK(third.number() == 0 && live == 1);
}

/// Calls a queue when it is dropped.
struct caller {
    struct pushes {
        void operator()(flatpq::task_queue<caller> *it) const { CHECK(it->push(9u, caller())); }
    };
    std::unique_ptr<flatpq::task_queue<caller>, pushes> to;
};

/// Calls its own queue when it is dropped. The queue is closed or ends, and refuses.
struct own_caller {
    struct calls {
        void operator()(flatpq::task_queue<own_caller> *it) const {
            constexpr auto why = code::closed;
            own_caller another;
            std::vector<flatpq::task<own_caller>> batch;
            batch.emplace_back(1u, own_caller());
            CHECK(it->push(9u, std::move(another)).error() == why && it->push_many(batch).error == why && it->pop().error() == why);
            CHECK(it->remove(1).error() == why && it->reschedule(1, 9u).error() == why && it->size().error() == why);
            CHECK(it->join().error() == why && it->shut() == why && it->close().error() == why && it->clear().error() == why);
            it->leave();
            ++dropped;
        }
    };
    std::unique_ptr<flatpq::task_queue<own_caller>, calls> to;
    static int dropped;
};
int own_caller::dropped = 0;

static void what_is_dropped_may_call_its_ending_queue() {
    constexpr auto asked = flatpq::options().with_tickets();
    {
        flatpq::task_queue<own_caller> queue(asked);
        for (unsigned key = 0; key < 3; ++key) {
            CHECK(queue.push(key, own_caller{{&queue, {}}}));
        }
        own_caller::dropped = 0;
    }
    CHECK(own_caller::dropped == 3);
    auto queue = *flatpq::task_queue<own_caller>::open(asked);
    CHECK(queue.push(1u, own_caller{{&queue, {}}}));
    const auto journal = queue.close();
    CHECK(journal && own_caller::dropped == 3);
}

/// Holds a member of its queue.
struct holder {
    std::unique_ptr<flatpq::task_member<holder>> own;
};

static void what_is_dropped_may_call() {
    auto queue = *flatpq::task_queue<caller>::open({2}), other = *flatpq::task_queue<caller>::open({1});
    CHECK(queue.push(0u, caller{{&queue, {}}}) && other.push(0u, caller{{&queue, {}}}));
    { const auto dropped = queue.pop(); }
    CHECK(queue.pop()->priority == 9);
    { const auto journal = other.close(); }
    CHECK(queue.pop()->priority == 9);
    {
        auto ending = *flatpq::task_queue<caller>::open();
        CHECK(ending.push(0u, caller{{&queue, {}}}));
    }
    CHECK(queue.pop()->priority == 9 && queue.pop().error() == code::empty);
    auto held = *flatpq::task_queue<holder>::open({3});
    CHECK(held.push(1u, holder{std::make_unique<flatpq::task_member<holder>>(*held.join())}));
    CHECK(held.close().error() == code::members_left && *held.clear() == 1 && held.close());
}

namespace {

/// Of 8 bytes, and not to be made of nothing.
struct pair {
    explicit pair(int of) : first(of), second(static_cast<std::int16_t>(-of)) {}
    std::int32_t first;
    std::int16_t second;
    friend bool operator==(const pair &a, const pair &b) { return a.first == b.first && a.second == b.second; }
};

/// At each 32nd byte.
struct alignas(32) aligned {
    int number;
    friend bool operator==(const aligned &a, const aligned &b) {
        return a.number == b.number && reinterpret_cast<std::uintptr_t>(&a) % 32 == 0;
    }
};

enum class color : std::uint8_t { red, green, blue, white };

/// Is there until it is dropped, also where it was moved from.
struct resident {
    static int there;
    resident() noexcept { ++there; }
    resident(resident &&) noexcept { ++there; }
    ~resident() { --there; }
};
int resident::there = 0;

/// Neither copied nor assigned to.
struct fixed {
    const int number;
    std::unique_ptr<std::string> name;
    resident own = {};
    friend bool operator==(const fixed &a, const fixed &b) { return a.number == b.number && *a.name == *b.name; }
};

} // namespace

// A payload of each kind goes through the queue as it is.
template <class T, class Make> static void goes_through(bool lies_in_value, Make make) {
    CHECK(flatpq::detail::lies_in_value<T> == lies_in_value);
    auto queue = *flatpq::task_queue<T>::open();
    for (int i = 0; i < 4; ++i) {
        CHECK(queue.push(7u, make(i)));
    }
    CHECK(queue.pop()->payload == make(0) && queue.take()->payload == make(1));
    CHECK(queue.close()->take()->payload == make(2));
}

static void kinds() {
    static const int numbers[4] = {};
    goes_through<std::uint64_t>(true, [](int i) { return UINT64_MAX - static_cast<std::uint64_t>(i); });
    goes_through<double>(true, [](int i) { return -0.5 * i; });
    goes_through<const int *>(true, [](int i) { return &numbers[i]; });
    goes_through<bool>(true, [](int i) { return i % 2 == 0; });
    goes_through<color>(true, [](int i) { return static_cast<color>(i); });
    goes_through<pair>(true, [](int i) { return pair(i); });
    goes_through<std::array<int, 4>>(false, [](int i) { return std::array<int, 4>{i, -i, 0, 1}; });
    goes_through<std::string>(false, [](int i) { return std::string(static_cast<std::size_t>(40 * i), 'a'); });
    goes_through<fixed>(false, [](int i) { return fixed{i, std::make_unique<std::string>(std::to_string(i))}; });
    auto wide = *flatpq::task_queue<aligned>::open();
    CHECK(wide.push(1u, aligned{3}) && wide.pop()->payload == aligned{3});
    auto shut = *flatpq::task_queue<fixed>::open();
    fixed refused{3, std::make_unique<std::string>("three")};
    CHECK(shut.shut() == code::ok && shut.push(1u, std::move(refused)).error() == code::shut && *std::launder(&refused)->name == "three");
    auto queue = *flatpq::task_queue<std::function<int()>>::open();
    const auto shared = std::make_shared<int>(3);
    CHECK(queue.push(1u, [shared] { return *shared; }) && queue.push(2u, [shared] { return *shared; }));
    CHECK(shared.use_count() == 3 && queue.pop()->payload() == 3);
    CHECK(shared.use_count() == 2 && *queue.clear() == 1 && shared.use_count() == 1);
}

#if __has_builtin(__builtin_clear_padding)
/// With three bytes between its members.
struct padded {
    std::uint8_t first;
    std::uint32_t second;
};

// Whatever stood in the padding of a payload, its text in a journal is the same.
static void padding_is_cleared() {
    auto queue = *flatpq::task_queue<padded>::open();
    for (const int filler : {0, 0xFF}) {
        padded it;
        std::memset(&it, filler, sizeof it);
        it.first = 1;
        it.second = 2;
        CHECK(queue.push(5u, it) && queue.push(5u, std::move(it)));
    }
    std::ostringstream text;
    CHECK(queue.archive(0)->write(text) == code::ok && queue.pop()->payload.second == 2);
    std::istringstream lines(text.str());
    for (std::string line; std::getline(lines, line);) {
        CHECK(line.find(" push 5 8589934593 pushed") != std::string::npos);
    }
}
#else
static void padding_is_cleared() {}
#endif

// Leaves other bytes than zeros where the next call has its own.
[[gnu::noinline]] static void fill_stack() {
    volatile unsigned char room[1 << 14];
    for (auto &it : room) {
        it = 0xFF;
    }
}

// Of one in a batch the text in a journal is that of its own bytes.
static void small_payloads_have_no_other_bytes() {
    auto queue = *flatpq::task_queue<char>::open();
    std::vector<flatpq::task<char>> batch;
    batch.emplace_back(5u, 'a');
    fill_stack();
    CHECK(queue.push_many(batch));
    std::ostringstream text;
    CHECK(queue.archive(0)->write(text) == code::ok && text.str().find(" push 5 97 pushed") != std::string::npos);
}

int main() {
    each_is_moved_once_in_and_once_out();
    a_batch_moves_each_once_in_and_once_out();
    a_refused_one_is_where_it_was();
    a_refused_one_of_another_type_is_dropped();
    a_copy_is_pushed_or_nothing();
    what_is_left_is_dropped();
    batches_keep_what_is_refused();
    a_batch_may_have_pairs();
    batches_come_out_in_order();
    a_loop_takes_no_item_that_it_does_not_read();
    an_item_that_is_not_read_stays();
    a_moved_drain_loses_no_item();
    what_is_dropped_may_call();
    what_is_dropped_may_call_its_ending_queue();
    CHECK(own_caller::dropped == 4);
    kinds();
    padding_is_cleared();
    small_payloads_have_no_other_bytes();
    CHECK(live == 0 && resident::there == 0);
    return 0;
}
