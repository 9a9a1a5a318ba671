/*
 * Shutting a queue. A shut is a request under the queue's lock as others are, with an entry of its own. It is never posted.
 *
 * A shut that waits is SHUT_WAITS: each try of a request carries it out first, by its own member (flatpq_before), and does not go on before that. So
 * a request that begins after pq_shut returned comes after the shut, and pq_shut waits for nothing: neither for a member, where all are in calls
 * that sleep, nor for the lock, nor for an archive, where a queue refuses what is not archived. That queue then refuses each request for the same
 * reason.
 *
 * Why nobody sleeps on. One that waits sets its word, and then makes a step. pq_shut sets SHUT_WAITS first, and then wakes all whose words are set.
 * So one that set it before tries again, and one that sets it later finds the shut before its step.
 */
#include "inside.h"

COLD pq_code flatpq_shut_first(pq_member *member) {
    core_answer answer;
    pq_code code = LEAVE_OUT(pq_core_try_shut(&member->proved, &answer));
    if (code != PQ_OK) {
        return code;
    }
    if (answer.kind != KIND_UNARCHIVED) {
        __atomic_store_n(&member->queue->is_shut, IS_SHUT, SEQ);
    }
    flatpq_wake_after(member);
    return answer.kind != KIND_UNARCHIVED ? PQ_OK : PQ_UNARCHIVED;
}

static pq_code try_shut(void *member) {
    return flatpq_before(member);
}

/* Carries out a shut that waits, where the thread has a member, or gets one without waiting. */
static void shut_now(pq_queue *queue) {
    pq_member *member = &queue->own;
    own *mine;
    if (__atomic_load_n(&queue->is_shut, SEQ) == SHUT_WAITS && flatpq_begin(&member, PQ_NOW, &mine) == PQ_OK) {
        (void)!flatpq_try(try_shut, member, queue, AT_ONCE);
        flatpq_end(mine);
    }
}

pq_code pq_shut(pq_queue *queue) {
    uint32_t is_open = 0;
    pq_code code;
    if (flatpq_special & FORKED) {
        return PQ_FORKED;
    }
    pthread_mutex_lock(&flatpq_members);
    code = queue->is_closed ? PQ_CLOSED : PQ_OK;
    if (code == PQ_OK) {
        /* A thread that finds the end may free the queue. Its memory stays until this call is done with it. */
        __atomic_fetch_add(&queue->staying, 1, SEQ);
        /* Under the lock: a close that comes next makes the shut. */
        __atomic_compare_exchange_n(&queue->is_shut, &is_open, SHUT_WAITS, 0, SEQ, SEQ);
    }
    pthread_mutex_unlock(&flatpq_members);
    if (code == PQ_OK) {
        shut_now(queue);
        flatpq_deliver(queue, __atomic_load_n(&queue->numbers, SEQ));
        flatpq_count(queue, &queue->staying, UINT32_MAX);
    }
    return code;
}

int pq_is_shut(pq_queue *queue) {
    return (flatpq_special & FORKED) == 0 && __atomic_load_n(&queue->is_shut, SEQ) != 0;
}
