/* Threads that wait for an item, for what is due and for a member, and members that listen, use no processor: those that wait for items sleep
   without a look in between, and so does one that waits by a timer. Once there are items each gets one. */
#include "../check.h"

#include <sys/resource.h>
#include <sys/timerfd.h>

enum { THREADS = 6, IDLE = 400 /* milliseconds */ };
/* A queue without an item, and one with an item that is due in an hour. */
static pq_queue *queue, *timers;

static void *wait_for_an_item(void *number) {
    const uintptr_t kind = (uintptr_t)number % 3;
    pq_item item;
    pq_code code = kind == 2 ? pq_take_due(pq_own(timers), &item, PQ_FOREVER, NULL)
                             : pq_take(pq_own(queue), &item, kind == 1 ? in_ms(3600000) : PQ_FOREVER, NULL);
    CHECK(code == PQ_OK && item.priority == 0);
    return NULL;
}

static void *wait_for_a_member(void *unused) {
    pq_member *member;
    (void)unused;
    CHECK(pq_join(queue, PQ_FOREVER, &member) == PQ_OK);
    pq_give_back(member);
    return NULL;
}

static void *wait_by_timer(void *unused) {
    struct pollfd timer = { 0, POLLIN, 0 };
    pq_item item;
    pq_code code;
    (void)unused;
    timer.fd = timerfd_create(CLOCK_MONOTONIC, 0);
    while ((code = pq_take_due_or_listen(pq_own(timers), timer.fd, &item, NULL)) != PQ_OK) {
        CHECK((code == PQ_NOT_DUE || code == PQ_EMPTY) && poll(&timer, 1, -1) == 1); /* PQ_EMPTY: others have the lock */
    }
    CHECK(item.priority == 0 && close(timer.fd) == 0);
    return NULL;
}

static int notified;

static void notify(void *context) {
    (void)context;
    notified++;
}

struct use {
    uint64_t microseconds;
    long switches;
};

static struct use used(void) {
    struct use it;
    struct rusage usage;
    CHECK(getrusage(RUSAGE_SELF, &usage) == 0);
    it.microseconds = (uint64_t)(usage.ru_utime.tv_sec + usage.ru_stime.tv_sec) * 1000000u;
    it.microseconds += (uint64_t)(usage.ru_utime.tv_usec + usage.ru_stime.tv_usec);
    it.switches = usage.ru_nvcsw;
    return it;
}

/* A hundredth of the time, and a twentieth where a thread waits for a member, which looks for one every 10 milliseconds. Tools use some too. */
static void is_idle(int waits_for_member) {
    struct use before = used(), after;
    const int is_slowed = requests(2) == 1;
    sleep_ms(IDLE);
    after = used();
    CHECK(after.microseconds - before.microseconds < (uint64_t)IDLE * (is_slowed ? 500 : waits_for_member ? 50 : 10));
    CHECK(is_slowed || after.switches - before.switches <= (waits_for_member ? 2 * IDLE / 10 : 5));
}

int main(void) {
    pthread_t threads[THREADS], joining, by_timer;
    pq_member *member, *other, *listening;
    pq_item item;
    queue = opened(THREADS);
    timers = opened(THREADS);
    member = joined(queue);
    other = joined(queue);
    listening = joined(timers);
    CHECK(pq_push(pq_own(timers), item_of(in_ms(3600000), 1), PQ_FOREVER, NULL) == PQ_OK);
    CHECK(pq_take_or_listen(listening, 0, &item, NULL, notify, NULL) == PQ_NOT_DUE);
    for (intptr_t i = 0; i < THREADS; i++) {
        threads[i] = started(wait_for_an_item, (void *)i);
    }
    by_timer = started(wait_by_timer, NULL);
    sleep_ms(50);
    is_idle(0);
    /* Two thirds of the threads have members of the queue, and two members were joined. */
    joining = started(wait_for_a_member, NULL);
    sleep_ms(10);
    is_idle(1);
    for (int i = 0; i <= THREADS; i++) {
        CHECK(pq_push(i <= THREADS / 3 ? pq_own(timers) : member, item_of(0, 1), PQ_FOREVER, NULL) == PQ_OK);
    }
    for (int i = 0; i < THREADS; i++) {
        ended(threads[i]);
    }
    ended(by_timer);
    ended(joining);
    pq_give_back(member);
    pq_give_back(other);
    pq_give_back(listening);
    close_and_free(queue);
    close_and_free(timers);
    return 0;
}
