// Words of scenarios, by the headers in C++: listeners, members that listen, and calls beside them. Each says to the explorer what its call
// came to. The headers are as they are: what they call of the library and the system is a point of the explorer.
#include "flatpq_tasks.hpp"
#include "wrapping.h"

#include <memory>
#include <optional>

namespace {

// A key that is the number itself, and a time of the library's clock.
struct moment {
    std::uint64_t at;
};

} // namespace

template <> struct flatpq::key_order<moment> {
    static constexpr std::uint64_t time_zero = 0, time_unit = 1;
    static constexpr std::uint64_t number(moment key) noexcept { return key.at; }
    static constexpr moment key(std::uint64_t number) noexcept { return {number}; }
};

namespace {

using queue = flatpq::queue<moment>;
using found = queue::found;

// What a member calls that listens. It ends as its member does, and nobody calls it then.
class notifying {
public:
    explicit notifying(std::uint32_t *word) : word_(word) {}
    ~notifying() { is_there_ = 0; }
    void operator()() {
        scheduler_point("notify", word_, WRITES, __FILE__, __LINE__);
        if (is_there_ != 0x7E11) {
            fail("a member calls what is there no more");
        }
        if (may_notify == 0) {
            fail("a member is notified that listens no more, or was notified already");
        }
        may_notify--;
        *word_ = 1;
        wake_word(word_);
    }
    // A call ends the earlier listening: until then that may notify, and from then on the new one.
    int may_notify = 0;

private:
    std::uint32_t *word_;
    volatile std::uint32_t is_there_ = 0x7E11;
};

// What a thread has of the queue.
struct thread {
    std::optional<queue::listener> listener;
    std::optional<queue::due_listener> due_listener;
    std::optional<queue::room_listener> room_listener;
    std::unique_ptr<notifying> notify;
    std::optional<queue::member> member;
    std::uint32_t is_notified = 0;
};

std::optional<queue> opened;
thread threads[MOST_FIBERS];

// What a call for an item came to: whether it has none, and listens.
bool ends(const found &it) {
    const bool is_ok = bool(it);
    check_call_ends(PQ_POP, static_cast<pq_code>(it.error()), is_ok ? pq_item{it->priority.at, it->value} : pq_item{0, 0}, it.number());
    return it.error() == flatpq::code::empty || it.error() == flatpq::code::not_due;
}

template <class Listener, class Listen> Listener &made(std::optional<Listener> &it, Listen listen) {
    if (!it) {
        auto joined = listen();
        if (!joined) {
            fail("no listener");
        }
        it.emplace(*std::move(joined));
    }
    return *it;
}

// Waits by the descriptor until the queue ends, or this time, and takes until there is none.
void listen(int which, const std::uint64_t *numbers) {
    auto &listener = made(threads[which].listener, [] { return opened->listen(flatpq::now); });
    for (bool goes_on = true; goes_on;) {
        check_call_begins(LISTENS_FOR, PQ_FOREVER, UINT64_MAX);
        goes_on = await_readable(listener.fd(), numbers[0]) != 0;
        for (bool listens = false; goes_on && !listens;) {
            check_call_begins(LISTENS_FOR, PQ_NOW, UINT64_MAX);
            const auto first = listener.take_or_listen();
            listens = ends(first);
            goes_on = first.error() != flatpq::code::shut;
            if (!goes_on && await_readable(listener.fd(), PQ_NOW) == 0) {
                fail("the queue is shut, and the descriptor of a listener is not readable");
            }
        }
        check_call_begins(NO_CALL, PQ_FOREVER, 0);
    }
}

void listen_once(int which, const std::uint64_t *) {
    auto &listener = made(threads[which].listener, [] { return opened->listen(flatpq::now); });
    check_call_begins(LISTENS_FOR, PQ_NOW, UINT64_MAX);
    ends(listener.take_or_listen());
}

void listen_due(int which, const std::uint64_t *numbers) {
    auto &listener = made(threads[which].due_listener, [] { return opened->listen_due(flatpq::now); });
    bool goes_on;
    do {
        check_call_begins(HAS_ALARM, PQ_FOREVER, 0);
        await_readable(listener.fd(), PQ_FOREVER);
        check_call_begins(CALLS, PQ_NOW, 0);
        const auto first = listener.take_or_listen();
        const bool listens = ends(first);
        goes_on = first || (listens && is_to_come(numbers[0]) != 0);
        check_call_begins(NO_CALL, PQ_FOREVER, 0);
    } while (goes_on);
}

// What a push came to: whether it found no room, and listens.
bool ends(const flatpq::result<std::uint64_t> &it, pq_item item) {
    if (it && *it == 0) {
        fail("a push has no entry");
    }
    check_call_ends(PQ_PUSH, static_cast<pq_code>(it.error()), item, it ? *it : 0);
    return it.error() == flatpq::code::full;
}

pq_item new_item(std::uint64_t priority) {
    return {priority, next_value()};
}

bool pushes_or_listens(queue::room_listener &listener, std::uint64_t priority) {
    const auto item = new_item(priority);
    check_call_begins(CALLS, PQ_NOW, 0);
    return ends(listener.push_or_listen(moment{priority}, std::uint64_t(item.value)), item);
}

// Pushes, or waits by the descriptor until there is room, or this time. That of a new listener is readable.
void listen_room(int which, const std::uint64_t *numbers) {
    bool listens = !threads[which].room_listener;
    auto &listener = made(threads[which].room_listener, [] { return opened->listen_room(flatpq::now); });
    do {
        check_call_begins(PUSHES, PQ_FOREVER, 0);
        const bool may_have_room = !listens || await_readable(listener.fd(), numbers[1]) != 0;
        listens = may_have_room && pushes_or_listens(listener, numbers[0]);
        check_call_begins(NO_CALL, PQ_FOREVER, 0);
    } while (listens);
}

void listen_room_once(int which, const std::uint64_t *numbers) {
    pushes_or_listens(made(threads[which].room_listener, [] { return opened->listen_room(flatpq::now); }), numbers[0]);
    check_call_begins(NO_CALL, PQ_FOREVER, 0);
}

void unlisten_room(int which, const std::uint64_t *) {
    threads[which].room_listener->unlisten();
}

void drop_listeners(int which, const std::uint64_t *) {
    threads[which].listener.reset();
    threads[which].due_listener.reset();
    threads[which].room_listener.reset();
}

template <class Listener> void move_there_and_back(std::optional<Listener> &it) {
    if (it) {
        auto moved = std::make_unique<Listener>(*std::move(it));
        it.reset();
        it.emplace(std::move(*moved));
    }
}

// The listeners go to other places in memory, and back.
void move_listeners(int which, const std::uint64_t *) {
    move_there_and_back(threads[which].listener);
    move_there_and_back(threads[which].due_listener);
    move_there_and_back(threads[which].room_listener);
}

// Another listener takes the place of this one, which ends.
void replace_listener(int which, const std::uint64_t *) {
    auto other = opened->listen(flatpq::now);
    if (!other || !threads[which].listener) {
        fail("no listener");
    }
    *threads[which].listener = *std::move(other);
}

bool is_notified(const thread &it) {
    scheduler_point("is it notified", &it.is_notified, READS, __FILE__, __LINE__);
    return it.is_notified != 0;
}

// Calls by a member that listens, and again whenever it is notified, up to this time.
template <class Call> void call_while_notified(int which, enum call as, std::uint64_t until, Call listens_after) {
    auto &mine = threads[which];
    auto &member = made(mine.member, [] { return opened->join(flatpq::now); });
    if (!mine.notify) {
        mine.notify = std::make_unique<notifying>(&mine.is_notified);
    }
    for (bool listens = true; listens && (is_notified(mine) || is_to_come(until) != 0);) {
        scheduler_point("not notified yet", &mine.is_notified, WRITES, __FILE__, __LINE__);
        mine.is_notified = 0;
        mine.notify->may_notify++;
        listens = listens_after(member, *mine.notify);
        mine.notify->may_notify = listens;
        check_call_begins(as, PQ_FOREVER, UINT64_MAX);
        if (listens) {
            sleep_at(&mine.is_notified, 0, until);
        }
        check_call_begins(NO_CALL, PQ_FOREVER, 0);
    }
}

void listen_by_member(int which, const std::uint64_t *numbers) {
    call_while_notified(which, LISTENS_FOR, numbers[0], [](auto &member, auto &notify) {
        check_call_begins(LISTENS_FOR, PQ_NOW, UINT64_MAX);
        return ends(member.take_or_listen(notify));
    });
}

void push_by_member(int which, const std::uint64_t *numbers) {
    call_while_notified(which, PUSHES, numbers[1], [=](auto &member, auto &notify) {
        const auto item = new_item(numbers[0]);
        check_call_begins(CALLS, PQ_NOW, 0);
        return ends(member.push_or_listen(moment{item.priority}, std::uint64_t(item.value), notify), item);
    });
}

void move_member(int which, const std::uint64_t *) {
    auto moved = std::make_unique<queue::member>(*std::move(threads[which].member));
    threads[which].member.reset();
    threads[which].member.emplace(std::move(*moved));
}

void unlisten(int which, const std::uint64_t *) {
    auto &mine = threads[which];
    if (mine.member->unlisten() && mine.is_notified != 0) {
        fail("a member was notified, and unlisten says that it was not");
    }
    mine.notify.reset();
}

void give_back(int which, const std::uint64_t *) {
    threads[which].member.reset();
    threads[which].notify.reset();
}

void push(int, const std::uint64_t *numbers) {
    const auto item = new_item(numbers[0]);
    check_call_begins(PUSHES, PQ_FOREVER, 0);
    ends(opened->push(moment{item.priority}, std::uint64_t(item.value)), item);
}

pq_code shuts() {
    return static_cast<pq_code>(opened->shut());
}

void shut(int, const std::uint64_t *) {
    (void)shuts();
}

// A listener is a member: no close ends the queue.
void close_beside(int, const std::uint64_t *) {
    if (opened->close().error() != flatpq::code::members_left) {
        fail("a queue is closed that has listeners");
    }
}

const word words[] = {
    {"listen", listen},
    {"listen-once", listen_once},
    {"listen-due", listen_due},
    {"drop-listener", drop_listeners},
    {"move-listener", move_listeners},
    {"replace-listener", replace_listener},
    {"listen-room", listen_room},
    {"listen-room-once", listen_room_once},
    {"unlisten-room", unlisten_room},
    {"listen-by-member", listen_by_member},
    {"push-by-member", push_by_member},
    {"move-member", move_member},
    {"unlisten", unlisten},
    {"give-back", give_back},
    {"push", push},
    {"shut", shut},
    {"close-beside", close_beside},
    {nullptr, nullptr},
};

void opens(const pq_options *options) {
    auto made = queue::open({options->members, static_cast<flatpq::keeping>(options->keeping), options->entries, options->most_items,
                             options->tickets != 0});
    if (made) {
        opened.emplace(*std::move(made));
    }
}

void thread_ends(int which) {
    drop_listeners(which, nullptr);
    give_back(which, nullptr);
}

void settles() {}

void frees() {
    opened.reset();
}

} // namespace

extern "C" {
extern const wrapper cpp_wrapper;
const wrapper cpp_wrapper = {"cpp", words, opens, thread_ends, settles, shuts, frees};
}
