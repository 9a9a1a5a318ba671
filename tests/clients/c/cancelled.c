/* A thread that is to be cancelled ends all its calls first, also those that sleep; only pq_write is a cancellation point. */
#include "../check.h"

#include <unistd.h>

enum { THREADS = 4, EACH = 100 };

static pq_queue *queue, *idle;
static int ended_calls;

/* A function of its own: AddressSanitizer doesn't see that a cancelled thread leaves the frames that it is in. */
__attribute__((noinline)) static void makes_calls(pq_member *member) {
    pq_item item = { 1, 2 };
    pq_journal *journal = NULL;
    size_t done;
    for (int i = 0; i < EACH; i++) {
        CHECK(pq_push(member, item, PQ_FOREVER, NULL) == PQ_OK && pq_pop(member, &item, PQ_FOREVER, NULL) == PQ_OK);
    }
    CHECK(pq_push_many(member, &item, 1, PQ_FOREVER, &done, NULL) == PQ_OK && pq_take(member, &item, PQ_FOREVER, NULL) == PQ_OK);
    CHECK(pq_take_due(pq_own(idle), &item, in_ms(5), NULL) == PQ_EMPTY && pq_take(pq_own(idle), &item, in_ms(5), NULL) == PQ_EMPTY);
    CHECK(pq_archive(member, 0, PQ_FOREVER, &journal) == PQ_OK);
    pq_journal_free(journal);
}

static void *works(void *member) {
    CHECK(pthread_cancel(pthread_self()) == 0);
    makes_calls((pq_member *)member);
    __atomic_fetch_add(&ended_calls, 1, __ATOMIC_RELAXED);
    pthread_testcancel();
    return NULL;
}

/* A pipe that nobody reads: the thread waits in pq_write until it is cancelled. */
static int ends[2];

static void *writes(void *journal) {
    CHECK(pipe(ends) == 0);
    while (pq_write((const pq_journal *)journal, ends[1]) == PQ_OK) {
    }
    return NULL;
}

int main(void) {
    pthread_t threads[THREADS];
    pq_member *members[THREADS];
    queue = opened(THREADS + 1);
    idle = opened(THREADS);
    for (size_t i = 0; i < THREADS; i++) {
        members[i] = i % 2 == 0 ? joined(queue) : pq_own(queue);
        threads[i] = started(works, members[i]);
    }
    for (size_t i = 0; i < THREADS; i++) {
        CHECK(ended(threads[i]) == PTHREAD_CANCELED);
        pq_give_back(i % 2 == 0 ? members[i] : NULL);
    }
    close_and_free(idle);
    pq_journal *journal = closed(queue);
    CHECK(ended_calls == THREADS && pq_count(journal, NULL) == 2 * THREADS * (EACH + 1));
    threads[0] = started(writes, journal);
    sleep_ms(20);
    CHECK(pthread_cancel(threads[0]) == 0 && ended(threads[0]) == PTHREAD_CANCELED);
    pq_journal_free(journal);
    return 0;
}
