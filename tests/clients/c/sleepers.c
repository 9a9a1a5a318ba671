/* The last joined member that does not wait may not listen. The system is asked for as many wakes as there are items. Who is woken for what
   tests/explore tries; many_wait.c has more threads that wait than members. */
#include "refused.h"
#include "system_calls.h"

#include <sys/timerfd.h>

static pq_queue *queue;
/* How many threads sleep, and how many wakes the system was asked for. */
static int asleep, wakes;

/* The library's sleeps and wakes come here. */
long __wrap_syscall(long number, ...) {
    va_list words;
    long of[6];
    va_start(words, number);
    read_words(words, of);
    va_end(words);
    const int sleeps = number == SYS_futex && (of[1] & FUTEX_CMD_MASK) == FUTEX_WAIT_BITSET;
    __atomic_fetch_add(&wakes, number == SYS_futex && (of[1] & FUTEX_CMD_MASK) == FUTEX_WAKE, __ATOMIC_SEQ_CST);
    __atomic_fetch_add(&asleep, sleeps, __ATOMIC_SEQ_CST);
    const long code = __real_syscall(number, of[0], of[1], of[2], of[3], of[4], FUTEX_BITSET_MATCH_ANY);
    __atomic_fetch_sub(&asleep, sleeps, __ATOMIC_SEQ_CST);
    return code;
}

static pq_code listens_by(pq_member *member, int timer) {
    pq_item item;
    return timer < 0 ? pq_take_or_listen(member, UINT64_MAX, &item, NULL, notes_nothing, NULL) : pq_take_due_or_listen(member, timer, &item, NULL);
}

/* It is refused, and once it is given back a push has it. The only member of a queue listens. */
static void the_last_member_does_not_listen(int timer) {
    pq_member *members[3];
    queue = opened(3);
    for (int i = 0; i < 3; i++) {
        members[i] = joined(queue);
        CHECK(listens_by(members[i], timer) == (i < 2 ? PQ_EMPTY : PQ_ALL_JOINED));
    }
    CHECK(pq_unlisten(members[0]) == 1 && listens_by(members[2], timer) == PQ_EMPTY);
    CHECK(listens_by(members[0], timer) == PQ_ALL_JOINED && pq_unlisten(members[0]) == 0);
    pq_give_back(members[0]);
    CHECK(pq_push(pq_own(queue), item_of(0, 1), PQ_NOW, NULL) == PQ_OK);
    pq_give_back(members[1]);
    pq_give_back(members[2]);
    close_and_free(queue);
    queue = opened(1);
    CHECK(listens_by(pq_own(queue), timer) == PQ_EMPTY && pq_push(pq_own(queue), item_of(0, 1), PQ_NOW, NULL) == PQ_OK);
    CHECK(pq_unlisten(pq_own(queue)) == 0);
    close_and_free(queue);
}

/* Another has its member meanwhile, and it makes its first call of the other queue. */
static void who_listens_at_one_queue_calls_another(void) {
    pq_queue *other = opened(1);
    queue = opened(1);
    CHECK(listens_by(pq_own(queue), -1) == PQ_EMPTY);
    pq_give_back(joined(queue));
    CHECK(pq_push(pq_own(other), item_of(0, 1), PQ_NOW, NULL) == PQ_OK);
    CHECK(pq_close(queue, NULL) == PQ_MEMBERS_LEFT && pq_unlisten(pq_own(queue)) == 1);
    close_and_free(queue);
    close_and_free(other);
}

static void *takes_all(void *unused) {
    pq_item item;
    while (pq_take(pq_own(queue), &item, PQ_FOREVER, NULL) == PQ_OK) {
        CHECK(is_item(item, 3, 4));
    }
    return unused;
}

static void await_asleep(int count) {
    while (is_set(&asleep) != count) {
        sleep_ms(1);
    }
}

/* Two items wake two of the threads; and where nobody waits nobody is woken. */
static void a_batch_wakes_as_many_as_it_has_items(void) {
    const pq_item items[2] = { { 3, 4 }, { 3, 4 } };
    pthread_t threads[3];
    pq_item item;
    size_t done;
    queue = opened(5);
    set(&wakes, 0);
    CHECK(pq_push(pq_own(queue), items[0], PQ_NOW, NULL) == PQ_OK && pq_pop(pq_own(queue), &item, PQ_NOW, NULL) == PQ_OK && is_set(&wakes) == 0);
    for (int i = 0; i < 3; i++) {
        threads[i] = started(takes_all, NULL);
    }
    await_asleep(3);
    CHECK(pq_push_many(pq_own(queue), items, 2, PQ_FOREVER, &done, NULL) == PQ_OK && done == 2);
    while (size_of(queue) > 0) {
        sleep_ms(1);
    }
    await_asleep(3);
    CHECK(is_set(&wakes) == 2 && pq_shut(queue) == PQ_OK);
    for (int i = 0; i < 3; i++) {
        ended(threads[i]);
    }
    close_and_free(queue);
}

int main(void) {
    const int timer = timerfd_create(CLOCK_MONOTONIC, 0);
    alarm(200);
    the_last_member_does_not_listen(-1);
    the_last_member_does_not_listen(timer);
    who_listens_at_one_queue_calls_another();
    a_batch_wakes_as_many_as_it_has_items();
    CHECK(close(timer) == 0);
    return 0;
}
