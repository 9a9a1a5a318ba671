/*
 * Words of scenarios: members that listen, and alarms.
 */
#include "explore.h"

#include <string.h>

/* Whether each member was notified since its last call began, and was when that returned, and by its own thread. */
static uint32_t notified[MOST_FIBERS], was_notified[MOST_FIBERS], notified_itself[MOST_FIBERS];

/* Of each member what its last two calls began, in turn, and which call is the last. Each may be notified of once. */
typedef struct {
    int which, may_notify;
} listening;

static listening listenings[MOST_FIBERS][2];
static int last[MOST_FIBERS], count_refused;

void listeners_begin(void) {
    memset(notified, 0, sizeof notified);
    memset(listenings, 0, sizeof listenings);
    memset(last, 0, sizeof last);
    count_refused = 0;
}

static int is_notified(int which) {
    scheduler_point("is it notified", &notified[which], READS, __FILE__, __LINE__);
    return notified[which] != 0;
}

static void notify(void *context) {
    listening *it = context;
    const int which = it->which;
    scheduler_point("notify", &notified[which], WRITES, __FILE__, __LINE__);
    if (!it->may_notify) {
        fail("member %d is notified, and does not listen, or was notified already", which);
    }
    it->may_notify = 0;
    notified_itself[which] = me == &fibers[which];
    notified[which] = 1;
    wake_word(&notified[which]);
}

/* A call begins. It ends the earlier listening: notify may run for that until then, and for the new one from now on. */
static listening *begin(int which) {
    listening *it = &listenings[which][last[which] ^= 1];
    scheduler_point("not notified yet", &notified[which], WRITES, __FILE__, __LINE__);
    notified[which] = notified_itself[which] = 0;
    *it = (listening){ which, 1 };
    return it;
}

static void end(listening *it, int listens) {
    listenings[it->which][!last[it->which]].may_notify = 0;
    it->may_notify &= listens;
    was_notified[it->which] = is_notified(it->which);
}

/* Takes, or begins to listen. */
static pq_code begin_listening(int which, uint64_t priority, pq_item *first) {
    listening *it = begin(which);
    uint64_t entry = 0;
    pq_code code;
    check_call_begins(LISTENS_FOR, PQ_NOW, priority);
    code = pq_take_or_listen(used[which], priority, first, &entry, notify, it);
    check_call_ends(PQ_POP, code, *first, code == PQ_OK ? entry : 0);
    end(it, code == PQ_EMPTY || code == PQ_NOT_DUE);
    return code;
}

void sleep_at(const uint32_t *at, uint32_t seen, uint64_t until) {
    scheduler_point("wait", at, READS, __FILE__, __LINE__);
    while (*at == seen && is_to_come(until) && !(is_over && me->call == SERVES)) {
        block(ON_WORD, at, until);
    }
}

/* Sleeps until it is notified, or this time. After a notify within its own call it naps: another thread may have the lock for long. */
static void await_notify(int which, enum call call, uint64_t priority, uint64_t until) {
    const uint64_t soon = 100000;
    check_call_begins(call, PQ_FOREVER, priority);
    sleep_at(&notified[which], 0, until);
    check_call_begins(NO_CALL, PQ_FOREVER, 0);
    if (was_notified[which]) {
        block(NAPS, NULL, now + soon);
    }
}

/* Takes, or listens until it is notified, up to this priority. */
static pq_code listen_until(int which, uint64_t priority, uint64_t until) {
    pq_item first = { 0, 0 };
    pq_code code;
    do {
        code = begin_listening(which, priority, &first);
        if (code == PQ_EMPTY || code == PQ_NOT_DUE) {
            await_notify(which, LISTENS_FOR, priority, until);
        }
    } while ((code == PQ_EMPTY || code == PQ_NOT_DUE) && is_notified(which));
    return code;
}

/* Takes what is due, or listens until it is notified, or the first item is due. */
static void listen_due(int which, const uint64_t *numbers) {
    pq_code code;
    do {
        pq_item first = { PQ_FOREVER, 0 };
        code = begin_listening(which, now, &first);
        if (code == PQ_EMPTY || code == PQ_NOT_DUE) {
            await_notify(which, LISTENS_FOR_DUE, 0, first.priority < numbers[0] ? first.priority : numbers[0]);
        }
    } while ((code == PQ_EMPTY || code == PQ_NOT_DUE) && is_to_come(numbers[0]));
}

static void listen(int which, const uint64_t *numbers) {
    (void)listen_until(which, numbers[0], numbers[1]);
}

static void listen_all(int which, const uint64_t *numbers) {
    while (listen_until(which, numbers[0], numbers[1]) == PQ_OK) {
    }
}

static void unlisten(int which, const uint64_t *numbers) {
    int listened;
    check_call_begins(CALLS, PQ_NOW, 0);
    listened = pq_unlisten(used[which]);
    check_call_begins(NO_CALL, PQ_FOREVER, 0);
    listenings[which][last[which]].may_notify = 0;
    if (listened && notified[which] && !was_notified[which]) {
        fail("a member was notified, and unlisten says that it was not");
    }
}

static void listen_once(int which, const uint64_t *numbers) {
    pq_item first = { 0, 0 };
    (void)begin_listening(which, numbers[0], &first);
    check_call_begins(NO_CALL, PQ_FOREVER, 0);
}

/* Another member stays awake meanwhile, for other threads too where this one is not joined. */
static void listen_surely(int which, const uint64_t *numbers) {
    pq_item first = { 0, 0 };
    if (begin_listening(which, numbers[0], &first) == PQ_ALL_JOINED) {
        fail("another member stays awake, and this one may not listen");
    }
    check_call_begins(NO_CALL, PQ_FOREVER, 0);
}

/* Of several members that are joined the last that does not wait. */
static void listen_last(int which, const uint64_t *numbers) {
    pq_item first = { 0, 0 };
    if (begin_listening(which, numbers[0], &first) != PQ_ALL_JOINED) {
        fail("the last member listens");
    }
    check_call_begins(NO_CALL, PQ_FOREVER, 0);
}

/* Two begin to listen: the first may. */
static void listen_unless_last(int which, const uint64_t *numbers) {
    pq_item first = { 0, 0 };
    if (begin_listening(which, numbers[0], &first) == PQ_ALL_JOINED && ++count_refused == 2) {
        fail("both are refused, and none waits");
    }
    check_call_begins(NO_CALL, PQ_FOREVER, 0);
}

/* Listens no more, unless the call found the lock held for long, and so notified the member itself. */
static void listen_held(int which, const uint64_t *numbers) {
    listen_once(which, numbers);
    if (!notified_itself[which]) {
        unlisten(which, numbers);
    }
}

/* Pushes, or begins to listen for room. */
static pq_code begin_listening_for_room(int which, uint64_t priority) {
    const pq_item item = new_item(priority);
    listening *it = begin(which);
    uint64_t entry = 0;
    pq_code code;
    check_call_begins(CALLS, PQ_NOW, 0);
    code = pq_push_or_listen(used[which], item, &entry, notify, it);
    check_call_ends(PQ_PUSH, code, item, entry);
    end(it, code == PQ_FULL);
    return code;
}

static void push_once(int which, const uint64_t *numbers) {
    (void)begin_listening_for_room(which, numbers[0]);
}

/* As listen_held. */
static void push_held(int which, const uint64_t *numbers) {
    push_once(which, numbers);
    if (!notified_itself[which]) {
        unlisten(which, numbers);
    }
}

/* Pushes, or listens until it is notified, up to this time. */
static void push_until(int which, const uint64_t *numbers) {
    pq_code code;
    do {
        code = begin_listening_for_room(which, numbers[0]);
        if (code == PQ_FULL) {
            await_notify(which, PUSHES, 0, numbers[1]);
        }
    } while (code == PQ_FULL && is_notified(which));
}

static pq_code begin_alarm(int which) {
    pq_item item = { 0, 0 };
    uint64_t entry = 0;
    pq_code code;
    check_call_begins(CALLS, PQ_NOW, 0);
    code = pq_take_due_or_listen(used[which], which, &item, &entry);
    check_call_ends(PQ_POP, code, item, code == PQ_OK ? entry : 0);
    return code;
}

static void alarm_once(int which, const uint64_t *numbers) {
    (void)begin_alarm(which);
}

/* Takes what is due, or waits for its timer, up to this time. */
static void alarm_until(int which, const uint64_t *numbers) {
    pq_code code;
    while ((code = begin_alarm(which)) == PQ_EMPTY || code == PQ_NOT_DUE) {
        check_call_begins(HAS_ALARM, PQ_FOREVER, 0);
        scheduler_point("wait for the timer", &timers[which], READS, __FILE__, __LINE__);
        while (is_to_come(timers[which])) {
            block(SLEEPS, &timers[which], timers[which]);
        }
        scheduler_point("unset the timer", &timers[which], WRITES, __FILE__, __LINE__);
        timers[which] = PQ_FOREVER;
        check_call_begins(NO_CALL, PQ_FOREVER, 0);
        if (!is_to_come(numbers[0])) {
            unlisten(which, numbers);
            return;
        }
    }
}

const word listener_words[] = {
    { "listen", listen },
    { "listen-all", listen_all },
    { "listen-due", listen_due },
    { "listen-once", listen_once },
    { "listen-surely", listen_surely },
    { "listen-last", listen_last },
    { "listen-unless-last", listen_unless_last },
    { "listen-held", listen_held },
    { "listen-room", push_until },
    { "listen-room-once", push_once },
    { "listen-room-held", push_held },
    { "unlisten", unlisten },
    { "alarm", alarm_until },
    { "alarm-once", alarm_once },
    { NULL, NULL },
};
