/* pq_take_due_or_listen: no push rings a timer after pq_unlisten. Each refusal has its code, and a thread that has the lock for long has the loop
   call again some times a millisecond. When a timer rings tests/explore tries, and with the system's timers ../cpp/events.cpp. */
#include "../wrapped.h"

#include <sys/eventfd.h>
#include <sys/timerfd.h>

static const uint64_t HOUR = 3600000;

/* A member that listens, its timer, and what its last call returned. */
typedef struct alarm_of {
    pq_member *member;
    int timer;
    pq_item item;
    uint64_t number;
} alarm_of;

static alarm_of alarm_by(pq_member *member) {
    alarm_of it = { NULL, -1, { 9, 9 }, 9 };
    it.member = member;
    it.timer = timerfd_create(CLOCK_MONOTONIC, TFD_NONBLOCK | TFD_CLOEXEC);
    CHECK(it.timer >= 0);
    return it;
}

static void end(alarm_of *it) {
    pq_give_back(it->member);
    CHECK(close(it->timer) == 0);
}

static pq_code take(alarm_of *it) {
    it->item = item_of(9, 9);
    it->number = 9;
    return pq_take_due_or_listen(it->member, it->timer, &it->item, &it->number);
}

static int rings(const alarm_of *it) {
    return is_readable(it->timer, 60000);
}

static int is_quiet(const alarm_of *it) {
    return !is_readable(it->timer, 10);
}

static void push(pq_member *member, uint64_t priority) {
    CHECK(pq_push(member, item_of(priority, 4), PQ_FOREVER, NULL) == PQ_OK);
}

static pq_code pop(pq_queue *queue) {
    pq_item item;
    return pq_pop(pq_own(queue), &item, PQ_FOREVER, NULL);
}

/* A time that the system has no more, and the last one, which never comes. */
static void some_times_never_ring(pq_queue *queue, pq_member *member) {
    alarm_of it = alarm_by(member);
    for (uint64_t never = UINT64_MAX - 1; never != 0; never++) {
        push(pq_own(queue), never);
        CHECK(take(&it) == PQ_NOT_DUE && it.item.priority == never && is_quiet(&it) && pop(queue) == PQ_OK);
    }
    CHECK(pq_unlisten(it.member) == 1 && pq_unlisten(it.member) == 0);
    push(pq_own(queue), 0);
    CHECK(is_quiet(&it) && take(&it) == PQ_OK && close(it.timer) == 0);
}

/* A refusal leaves the item where it was, and the member does not listen. */
static void it_is_refused(pq_queue *queue, pq_member *member) {
    const int files[] = { -1, eventfd(0, 0), 1 << 20 };
    alarm_of it = alarm_by(member), none = { NULL, -1, { 9, 9 }, 9 };
    pq_queue *full = opened_as(2, PQ_FILLS, 1);
    pq_item item = item_of(9, 9);
    CHECK(take(&none) == PQ_NO_MEMBER && is_item(none.item, 9, 9));
    for (size_t i = 0; i < sizeof files / sizeof *files; i++) {
        CHECK(pq_take_due_or_listen(member, files[i], &item, NULL) == PQ_NO_TIMER && is_item(item, 9, 9) && pq_unlisten(member) == 0);
        push(pq_own(queue), in_ms(HOUR));
        CHECK(pq_take_due_or_listen(member, files[i], &item, NULL) == PQ_NO_TIMER && is_item(item, 9, 9) && pq_unlisten(member) == 0);
        CHECK(pop(queue) == PQ_OK);
    }
    CHECK(close(files[1]) == 0 && take(&it) == PQ_EMPTY && close(it.timer) == 0 && pq_unlisten(member) == 1);
    it = alarm_by(joined(full));
    CHECK(take(&it) == PQ_EMPTY && pq_pop(pq_own(full), &item, PQ_FOREVER, NULL) == PQ_EMPTY && rings(&it) && take(&it) == PQ_JOURNAL_FULL);
    CHECK(is_item(it.item, 9, 9) && pq_unlisten(it.member) == 0);
    end(&it);
    close_and_free(full);
}

/* While another thread has the lock the call returns PQ_EMPTY, and the timer is readable soon, not at once. */
static void a_lock_that_is_held_costs_little(void) {
    pq_queue *queue = opened(3);
    alarm_of it = alarm_by(joined(queue));
    const uint64_t apart = 100000;
    uint64_t began, until, calls = 0;
    holder own;
    hold(&own, queue, HOLDS_AND_STOPS);
    CHECK(pq_take_due_or_listen(it.member, -1, &it.item, NULL) == PQ_NO_TIMER && pq_unlisten(it.member) == 0);
    began = pq_now();
    until = in_ms(50);
    for (; calls == 0 || pq_now() < until; calls++) {
        CHECK(take(&it) == PQ_EMPTY && rings(&it) && pq_unlisten(it.member) == 0);
    }
    CHECK(calls <= (pq_now() - began) / apart + 1);
    let_go(&own);
    while (own.pushed > 0) {
        const pq_code code = take(&it);
        CHECK(code == PQ_OK ? is_item(it.item, 1, 100) : code == PQ_EMPTY && rings(&it));
        own.pushed -= code == PQ_OK;
    }
    CHECK(take(&it) == PQ_EMPTY && is_quiet(&it));
    end(&it);
    close_and_free(queue);
}

int main(void) {
    pq_queue *queue = opened(6);
    pq_member *member = joined(queue);
    some_times_never_ring(queue, member);
    it_is_refused(queue, member);
    pq_give_back(member);
    close_and_free(queue);
    a_lock_that_is_held_costs_little();
    return 0;
}
