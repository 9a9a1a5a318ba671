/*
 * Waiting until an entry is archived.
 *
 * A thread that waits counts itself first, then reads `archives`, and then `archived`. A thread that archives writes `archived` first, then
 * `archives`, and then reads how many wait. So either the one that waits sees that the number rose, or it is woken. A queue that is freed stays
 * until the last of them has left it.
 */
#include "inside.h"

#include <limits.h>

static void wake_awaiting(pq_queue *queue) {
    __atomic_fetch_add(&queue->archives, 1, SEQ);
    if (__atomic_load_n(&queue->staying, SEQ) > 0) {
        flatpq_wake(&queue->archives, INT_MAX);
    }
}

void flatpq_count_archived(pq_queue *queue, uint64_t archived) {
    uint64_t before = __atomic_load_n(&queue->archived, SEQ);
    if (IS_WATCHED) {
        flatpq_tsan_archive(queue);
    }
    while (archived > before) {
        if (__atomic_compare_exchange_n(&queue->archived, &before, archived, 0, SEQ, SEQ)) {
            wake_awaiting(queue);
            return;
        }
    }
}

void flatpq_end_awaiting(pq_queue *queue) {
    wake_awaiting(queue);
}

/* What a wait comes to now: LOCK_HELD where it goes on. It looks first whether the queue has ended, as an entry may be archived just before. */
static pq_code look(pq_queue *queue, uint64_t number, uint64_t until) {
    int has_ended = __atomic_load_n(&queue->is_closed, SEQ) || __atomic_load_n(&queue->is_freed, SEQ);
    if (__atomic_load_n(&queue->archived, SEQ) >= number) {
        if (IS_WATCHED) {
            flatpq_tsan_archived(queue);
        }
        return PQ_OK;
    }
    if (has_ended) {
        return PQ_CLOSED;
    }
    return flatpq_is_late(until) ? PQ_TIMED_OUT : LOCK_HELD;
}

static pq_code sleep_until_archived(pq_queue *queue, uint64_t number, uint64_t until) {
    for (;;) {
        uint32_t seen = __atomic_load_n(&queue->archives, SEQ);
        pq_code code = look(queue, number, until);
        if (code != LOCK_HELD) {
            return code;
        }
        flatpq_sleep(&queue->archives, seen, until);
    }
}

pq_code pq_wait_archived(pq_queue *queue, uint64_t number, uint64_t until) {
    pq_code code;
    if (flatpq_special & FORKED) {
        return PQ_FORKED;
    }
    code = look(queue, number, until);
    if (code == LOCK_HELD) {
        flatpq_count(queue, &queue->staying, 1);
        code = sleep_until_archived(queue, number, until);
        flatpq_count(queue, &queue->staying, UINT32_MAX);
    }
    return code;
}
