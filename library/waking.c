/*
 * How those are woken that wait for an item, or for room. Who waits stands in a list beside the items, under the queue's lock, each under a number.
 * The combiner decides whom to wake before it frees the lock (crates/wait_list). Here its wakes are delivered, without a lock.
 *
 * The word of one that waits is SLEEPING or LISTENS from before its entry is made. A wake is delivered by who changes that word. A listener's next
 * call changes LISTENS first, or waits until notify has returned, so notify never runs after that. A wake that is delivered late may find a later
 * wait under its number, which then is woken for nothing.
 *
 * A thread that waits no more, and finds the lock held, sets its number's bit in `gone`, and tries the lock once more. Each thread that had the lock
 * reads `gone` after that, and takes those entries out. One that finds the lock held then puts the bits back, and tries again: so the one that has
 * the lock reads `gone` later. Only who took an entry out gives its number back.
 *
 * A thread that comes back, and gets no member, is still in the list, and others may rely on it. It sets its bit in `stranded`, and then reads
 * `holders`: those that wait and have a member. One of these sets its bit there, and then reads `stranded`. Either moves the bits to `gone`. So none
 * of those that could go on relies on one that cannot.
 */
#include "inside.h"

#include <limits.h>

#include <sys/syscall.h>
#include <unistd.h>

void pq_notify_fd(void *context) {
    const uint64_t one = 1;
    /* The system refuses this where the descriptor counts 2^64 - 2 already. */
    if (syscall(SYS_write, (long)(intptr_t)context, &one, sizeof one) < 0) {
        return;
    }
}

static void deliver(waiter *it) {
    uint32_t word = SLEEPING;
    if (__atomic_compare_exchange_n(&it->word, &word, WOKEN, 0, SEQ, SEQ)) {
        flatpq_wake(&it->word, 1);
    } else if (word == LISTENS && __atomic_compare_exchange_n(&it->word, &word, NOTIFYING, 0, SEQ, SEQ)) {
        it->notify(it->context);
        if (__atomic_exchange_n(&it->word, WOKEN, SEQ) == AWAITED) {
            flatpq_wake(&it->word, 1);
        }
    }
}

void flatpq_deliver(pq_queue *queue, uint64_t wakes) {
    for (; wakes != 0; wakes &= wakes - 1) {
        deliver(&queue->waiters[__builtin_ctzll(wakes)]);
    }
}

int flatpq_claim(waiter *it) {
    uint32_t word = LISTENS;
    if (__atomic_compare_exchange_n(&it->word, &word, AWAKE, 0, SEQ, SEQ)) {
        return 1;
    }
    if (word == NOTIFYING && __atomic_compare_exchange_n(&it->word, &word, AWAITED, 0, SEQ, SEQ)) {
        flatpq_sleep(&it->word, AWAITED, PQ_FOREVER);
    }
    return 0;
}

/* Has these entries taken out, and others woken in their place: 0 where the lock is held. */
static int take_out(pq_member *member, uint64_t numbers) {
    if (LEAVE_OUT(pq_core_leave(&member->proved, numbers)) != PQ_OK) {
        return 0;
    }
    flatpq_give_numbers(member->queue, numbers);
    flatpq_deliver(member->queue, pq_core_take_wakes(&member->proved));
    return 1;
}

COLD void flatpq_wake_after(pq_member *member) {
    uint64_t *gone = &member->queue->gone;
    flatpq_deliver(member->queue, pq_core_take_wakes(&member->proved));
    while (__atomic_load_n(gone, SEQ) != 0) {
        uint64_t numbers = __atomic_exchange_n(gone, 0, SEQ);
        if (!take_out(member, numbers)) {
            __atomic_fetch_or(gone, numbers, SEQ);
            if (!take_out(member, 0)) {
                return;
            }
        }
    }
}

/* One that waits by a joined member, which may listen meanwhile, is among the holders under one number at each moment. */
void flatpq_hold(pq_queue *queue, uint64_t no_more, uint64_t number) {
    uint64_t held = __atomic_load_n(&queue->holders, SEQ);
    while (!__atomic_compare_exchange_n(&queue->holders, &held, (held & ~no_more) | number, 0, SEQ, SEQ)) {
    }
}

void flatpq_hand_on(pq_queue *queue) {
    const uint64_t numbers = __atomic_exchange_n(&queue->stranded, 0, SEQ);
    __atomic_fetch_or(&queue->gone, numbers, SEQ);
}

/* One that has handed entries on may make no step after that, so it reads `gone` here. Without a member others take the entries out: all that
   sleep are woken for that. */
void flatpq_end_wait(wait *it) {
    pq_queue *queue = it->queue;
    const uint64_t number = it->number;
    if (number != 0) {
        flatpq_hold(queue, number, it->listening);
        if (it->is_in) {
            __atomic_fetch_or(&queue->gone, number, SEQ);
        } else {
            flatpq_give_numbers(queue, number);
        }
        it->number = 0;
        it->is_in = 0;
    }
    if (__atomic_load_n(&queue->gone, SEQ) == 0) {
        return;
    }
    if (it->member != NULL) {
        flatpq_wake_after(it->member);
    } else {
        flatpq_deliver(queue, __atomic_load_n(&queue->numbers, SEQ));
        flatpq_call_unnumbered(queue, INT_MAX);
    }
}
