/*
 * Members that listen for an event loop or a future. One that listens has a number and an entry, as a thread has that waits (waiting.c). In place of
 * a sleep it returns, and is notified once. A thread that listens by its own member holds none meanwhile.
 *
 * An alarm listens by a timer of the program. It sets that for the time at which the first item is due, after its step, and then reads its word. To
 * ring is to set the timer for a time that is over, after a change of that word. So if both set it, an item may be due earlier, and the later of
 * the two sets it for a time that is over.
 */
#include "inside.h"

#include <sys/timerfd.h>

int flatpq_unlisten(wait *it) {
    int listened;
    if (it->number == 0) {
        return 0;
    }
    listened = flatpq_claim(flatpq_waiter_of(it));
    *it->listens = 0;
    flatpq_end_wait(it);
    if (it->is_own) {
        flatpq_wait_no_more(it);
    }
    return listened;
}

/* Of several members that are joined the last that does not wait stays awake, for those that call by their own. */
static int may_listen(wait *it) {
    const uint32_t members = it->queue->members;
    uint64_t held = __atomic_load_n(&it->queue->holders, SEQ);
    if (!flatpq_take_number(it) || it->is_own) {
        return it->number != 0;
    }
    do {
        const uint32_t waiting = (uint32_t)__builtin_popcountll(held) + __atomic_load_n(&it->queue->unheld, SEQ);
        if (members > 1 && waiting + 1 >= members) {
            return 0;
        }
    } while (!__atomic_compare_exchange_n(&it->queue->holders, &held, held | it->number, 0, SEQ, SEQ));
    flatpq_hand_on(it->queue);
    return 1;
}

static pq_code begin_listening(wait *it) {
    pq_code code = flatpq_step(it, LISTENS, AT_ONCE);
    if (flatpq_is_over(code)) {
        return code;
    }
    if (!may_listen(it)) {
        flatpq_end_wait(it);
        return PQ_ALL_JOINED;
    }
    *it->listens = it->number;
    __atomic_fetch_add(&it->queue->waiting, (uint32_t)it->is_own, SEQ);
    return code;
}

/* 0: it is none. */
static int set_timer(void *timer, uint64_t time) {
    const uint64_t second = 1000000000;
    struct itimerspec at = { { 0, 0 }, { 0, 0 } };
    if (time != PQ_FOREVER) {
        at.it_value.tv_sec = (time_t)(time / second);
        at.it_value.tv_nsec = (long)(time % second);
    }
    return timerfd_settime((int)(intptr_t)timer, TFD_TIMER_ABSTIME, &at, NULL) == 0;
}

static void ring(void *timer) {
    const uint64_t over = 1;
    (void)set_timer(timer, over);
}

static pq_code arm(const wait *it, pq_code code) {
    if (!set_timer(it->context, code == PQ_EMPTY ? PQ_FOREVER : flatpq_due_time(it->queue, it->answer->item.priority))) {
        return PQ_NO_TIMER;
    }
    if (__atomic_load_n(&flatpq_waiter_of(it)->word, SEQ) != LISTENS) {
        ring(it->context);
    }
    return code;
}

static pq_code take_or_listen(wait *it) {
    pq_code code = it->number != 0 ? PQ_EMPTY : begin_listening(it);
    if (!flatpq_is_over(code)) {
        waiter *waits = flatpq_waiter_of(it);
        (void)flatpq_claim(waits);
        waits->notify = it->notify;
        waits->context = it->context;
        code = flatpq_step(it, LISTENS, AT_ONCE);
    }
    return it->wants == ALARM && !flatpq_is_over(code) ? arm(it, code) : code;
}

/* Makes a call that listens. Where others have the lock, or all members, for long it is to be made again, and else comes to this. */
static pq_code listen(wait *it, pq_member *member, pq_code none) {
    const uint64_t soon = 100000;
    int is_notified = 0;
    pq_code code = flatpq_begin_wait(it, member);
    if (code == PQ_OK) {
        it->item.priority = it->wants == ALARM ? flatpq_due_now(it->queue) : it->item.priority;
        code = take_or_listen(it);
    }
    if (flatpq_is_over(code) && it->number != 0) {
        is_notified = !flatpq_unlisten(it) && it->member != NULL; /* else it was notified before this call */
    }
    flatpq_end(it->mine);
    if (code != PQ_TIMED_OUT) {
        return code;
    }
    if (it->wants == ALARM) {
        return set_timer(it->context, pq_after(soon)) ? none : PQ_NO_TIMER;
    }
    if (!is_notified) {
        it->notify(it->context);
    }
    return none;
}

static pq_code take_by(wait *it, pq_member *member, pq_item *item, uint64_t *number) {
    core_answer answer;
    pq_code code;
    it->answer = &answer;
    code = listen(it, member, PQ_EMPTY);
    flatpq_return_first(code, &answer, item, number);
    return code;
}

pq_code pq_take_or_listen(pq_member *member, uint64_t priority, pq_item *item, uint64_t *number, void (*notify)(void *context), void *context) {
    wait it = { .wants = UP_TO, .item = { priority, 0 }, .notify = notify, .context = context };
    return take_by(&it, member, item, number);
}

pq_code pq_take_due_or_listen(pq_member *member, int timer, pq_item *item, uint64_t *number) {
    wait it = { .wants = ALARM, .notify = ring, .context = (void *)(intptr_t)timer };
    return take_by(&it, member, item, number);
}

pq_code pq_push_or_listen(pq_member *member, pq_item item, uint64_t *number, void (*notify)(void *context), void *context) {
    core_answer answer;
    wait it = { .wants = ROOM_TO_LISTEN, .item = item, .answer = &answer, .notify = notify, .context = context };
    pq_code code = listen(&it, member, PQ_FULL);
    if (code == PQ_OK && number != NULL) {
        *number = answer.number;
    }
    return code;
}

static int listens(const pq_member *member) {
    const own *mine = member->is_shared ? flatpq_own_of(member) : NULL; /* a record of a freed queue may have a member's address */
    return (mine != NULL ? mine->listens : member->listens) != 0;
}

int pq_unlisten(pq_member *member) {
    wait it = { .number = 0 };
    int listened;
    if (member == NULL || flatpq_special & FORKED || !listens(member)) {
        return 0;
    }
    (void)!flatpq_begin_wait(&it, member);
    listened = flatpq_unlisten(&it);
    flatpq_end(it.mine);
    return listened;
}
