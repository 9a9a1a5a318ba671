/*
 * What the sources of the library share: what a queue, a member and a thread are.
 */
#ifndef FLATPQ_INSIDE_H
#define FLATPQ_INSIDE_H

#define _GNU_SOURCE
#include "core.h"
#include "flatpq.h"

#include <pthread.h>

#define HIDDEN __attribute__((visibility("hidden")))
#define COLD __attribute__((cold, noinline))
#define INLINE static inline __attribute__((always_inline))
#define LIKELY(holds) ((int)__builtin_expect((holds) != 0, 1))
#define SEQ __ATOMIC_SEQ_CST

/* One that waits for an item, or for room, under a number of the queue (waiting.c): a thread that sleeps, or a member that listens. */
typedef struct waiter {
    uint32_t word;                 /* a thread sleeps while it is SLEEPING */
    void (*notify)(void *context); /* these are written while nobody is notified, and read by who changed LISTENS to NOTIFYING */
    void *context;
} waiter;

/* A member. The one inside a queue stands for each thread's own member, and only its `queue`, and what the queue is, are used. */
struct pq_member {
    core proved;
    pq_queue *queue;
    uint32_t is_shared : 1; /* it is the one inside a queue */
    uint32_t has_tickets : 1;
    uint32_t place;
    uint64_t listens; /* it was joined, and listens under this number; 0: it does not. A number is a bit of a mask. */
    pq_member *next;  /* of those that are in no use */
} __attribute__((aligned(128)));

/* A thread's record of its own member of a queue (own.c). */
typedef struct own {
    pq_member *shared; /* what pq_own returns */
    pq_member *member;
    uint32_t busy;  /* the thread is in a call by the member. Only this thread writes it, and `listens`. */
    uint32_t taken; /* WANTED or TAKEN. It is written under the lock of members. */
    uint64_t listens; /* it listens under this number. It does so without a member, and its record stays meanwhile. */
    uint32_t place;
    pq_queue *queue;
    struct own *next;               /* of the thread */
    struct own *next_of_queue, **at; /* of the queue */
} __attribute__((aligned(64))) own;

enum { WANTED = 1, TAKEN = 2 };
enum { KINDS = 6 }; /* of threads that wait (waiting.c) */

/* A queue. What changes together has cache lines of its own. */
struct pq_queue {
    pq_member own;
    core proved;
    uint64_t time_zero, time_unit;
    uint64_t most_items; /* 0: as many as there are */
    uint64_t gone;       /* numbers whose entries are to be taken out */
    uint32_t is_shut;    /* SHUT_WAITS, IS_SHUT (shutting.c) */
    uint32_t members; /* how many there may be */
    const pthread_mutex_t *lock; /* of members: that of the copy of the library which opened the queue */

    /* Members, under their lock. */
    uint32_t is_closed __attribute__((aligned(64)));
    uint32_t is_freed;  /* by the program */
    uint32_t is_ending; /* a thread frees its memory; the function `left` may call it meanwhile */
    uint32_t is_marked; /* the records of the queue are WANTED */
    uint32_t out;       /* members in use */
    uint32_t staying;   /* threads for which its memory stays: they wait until an entry is archived, or shut it */
    uint32_t waiting;   /* threads that wait without a member, or listen so; a queue where any does is not closed */
    pq_member *spare;   /* members in no use */
    own *owns;
    struct wanting *wanted, **wanted_end; /* threads that wait for a member, and where the next one goes */
    void (*left)(void *context, pq_item item);
    void *left_context;

    /* Those that wait, without a lock. Numbers in use, and of them those by which a joined member waits, and those whose threads get no member. */
    uint64_t numbers __attribute__((aligned(64))), holders, stranded;
    uint32_t unnumbered[KINDS], given[KINDS]; /* threads of each kind that have no number, and at what they sleep */
    uint32_t unheld; /* of them those that sleep by joined members, and are no holders */
    waiter waiters[64];

    /* What is archived, without a lock (durable.c). */
    uint64_t archived __attribute__((aligned(64))); /* how many entries */
    uint32_t archives;                              /* how often that rose: threads sleep until it changes */
};

enum { SHUT_WAITS = 1, IS_SHUT = 2 };
/* How far apart a thread's calls are: by that a call decides whether it spins (calls.c). Times are nanoseconds. */
typedef struct pace {
    uint32_t calls;        /* made since it last waited for the lock */
    uint32_t fails, skips; /* how many spins in a row failed, up to a few; how many of its next waits don't spin */
    uint64_t waited;       /* when it last waited; 0: never */
    uint64_t apart;
} pace;

typedef struct thread {
    own *last;  /* the record that it used last; never NULL */
    own **owns; /* lists of its records, by the queues' addresses; NULL where it has none */
} thread;
extern __thread thread flatpq_thread HIDDEN __attribute__((tls_model("initial-exec")));
extern __thread pace flatpq_pace HIDDEN __attribute__((tls_model("initial-exec")));

/*
 * guard.c: forks, the processor, the clock, sleeping, barriers, and ThreadSanitizer.
 */

/* What makes this process special, which most are not: it is a forked child; no barrier reaches all threads, so each own call has a fence;
   or ThreadSanitizer watches. It changes at the first opening, and in a child. */
extern uint32_t flatpq_special HIDDEN;
enum { FORKED = 1, FENCES = 2, WATCHED = 4 };
extern uint32_t flatpq_processors HIDDEN; /* of which the process may use so many; where there is one no call spins */

HIDDEN pq_code flatpq_may_open(void);
HIDDEN pq_code flatpq_may_read(void);
HIDDEN int flatpq_barrier(void);                                             /* in all threads of the process: whether it was made */
HIDDEN int flatpq_sleep(const uint32_t *word, uint32_t seen, uint64_t until); /* while the word is that: 0; 1: the time has come */
HIDDEN void flatpq_nap(uint64_t until);
HIDDEN void flatpq_wake(const uint32_t *word, int most); /* so many of those that sleep there */
HIDDEN int flatpq_is_late(uint64_t until);

/* What the proved calls do to memory is left out. What a thread did before it pushed an item happens before what another does with it, and
   what one did before it counted entries as archived before what another does that waited for that. */
HIDDEN void flatpq_tsan_ignore(int begins);
HIDDEN void flatpq_tsan_push(pq_item item);
HIDDEN void flatpq_tsan_pop(pq_item item);
HIDDEN void flatpq_tsan_move(void);
HIDDEN void flatpq_tsan_archive(pq_queue *queue);
HIDDEN void flatpq_tsan_archived(pq_queue *queue);
#define IS_WATCHED (!LIKELY((flatpq_special & WATCHED) == 0))
#define LEAVE_OUT(call) (!IS_WATCHED ? (call) : (flatpq_tsan_ignore(1), flatpq_left_out(call)))
static inline pq_code flatpq_left_out(pq_code code) {
    flatpq_tsan_ignore(0);
    return code;
}

/*
 * queue.c: queues and their members.
 */
extern pthread_mutex_t flatpq_members HIDDEN; /* the lock of all queues' members, and of all threads' records */
HIDDEN void flatpq_unlock(pq_queue *queue);   /* unlocks that; the queue may be gone after this */
HIDDEN pq_code flatpq_get_member(pq_queue *queue, uint64_t until, own *record, pq_member **member); /* without the lock */
HIDDEN void flatpq_release(pq_queue *queue, pq_member *member);
HIDDEN void flatpq_count(pq_queue *queue, uint32_t *count, uint32_t more); /* under the lock. The queue may be gone after this. */

/*
 * own.c: which member a call uses. The first four are called under the lock.
 */
HIDDEN void flatpq_mark(pq_queue *queue, uint32_t taken);
HIDDEN void flatpq_put_in(pq_queue *queue, own *record, pq_member *member);
HIDDEN pq_code flatpq_take_over(pq_queue *queue, pq_member **member);
HIDDEN void flatpq_take_back(pq_queue *queue);
HIDDEN pq_code flatpq_begin_own(pq_member *shared, uint64_t until, own **mine);
HIDDEN void flatpq_end_own(own *mine);
HIDDEN own *flatpq_own_of(const pq_member *shared); /* the thread's record, which may be TAKEN; NULL: it has none */

INLINE void flatpq_fence(uint32_t special) {
    if (LIKELY((special & FENCES) == 0)) {
        __atomic_signal_fence(SEQ);
    } else {
        __atomic_thread_fence(SEQ);
    }
}

/* The thread is in a call by its own member. 1: nobody took the member over, nor wants it. */
INLINE int flatpq_enter(own *it, uint32_t special) {
    __atomic_store_n(&it->busy, 1, __ATOMIC_RELAXED);
    flatpq_fence(special);
    return LIKELY(__atomic_load_n(&it->taken, __ATOMIC_ACQUIRE) == 0);
}

/* The thread is no longer in that call. The queue may be gone after this. */
INLINE void flatpq_leave(own *it, uint32_t special) {
    __atomic_store_n(&it->busy, 0, __ATOMIC_RELEASE);
    flatpq_fence(special);
    if (!LIKELY(__atomic_load_n(&it->taken, __ATOMIC_ACQUIRE) == 0)) {
        flatpq_end_own(it);
    }
}

/* Begins a call: *member is the one to use. *mine is the thread's record of it, or NULL where the caller joined it. */
static inline pq_code flatpq_begin(pq_member **member, uint64_t until, own **mine) {
    pq_member *it = *member;
    *mine = NULL;
    if (!LIKELY((flatpq_special & FORKED) == 0)) {
        return PQ_FORKED;
    }
    if (!LIKELY(it != NULL)) {
        return PQ_NO_MEMBER;
    }
    if (it->is_shared) {
        own *last = flatpq_thread.last;
        if (!LIKELY(last->shared == it) || !flatpq_enter(last, flatpq_special)) {
            pq_code code = flatpq_begin_own(it, until, &last);
            if (code != PQ_OK) {
                return code;
            }
        }
        *mine = last;
        *member = last->member;
    }
    return PQ_OK;
}

/* Ends a call. The queue may be gone after this. */
static inline void flatpq_end(own *mine) {
    if (mine != NULL) {
        flatpq_leave(mine, flatpq_special);
    }
}

/*
 * resting.c: how a call rests that finds the lock held.
 */
typedef struct rest {
    uint64_t until, nap; /* how long a nap is */
    uint64_t now, posts, ends; /* the time that it last read; until when it only tries the lock; until when it spins, 0: it spins no more */
    uint32_t pauses, tries, is_late;
} rest;
/* What finds the lock held: a call, one that may post its request, or a look for an item that is due. */
enum { CALL, MAY_POST, LOOK };
HIDDEN rest flatpq_rest_of(const pq_queue *queue, uint64_t until, uint32_t kind);
HIDDEN int flatpq_spins(rest *it); /* pauses: 0 where the spin is over */
HIDDEN int flatpq_rests(rest *it); /* pauses or naps: 0 where the time has come */
HIDDEN void flatpq_rested(const rest *it);

/* The deadline of a call that does not wait: it tries some times, and now and then yields its processor to the thread that has the lock. */
#define AT_ONCE 1u

/* Tries until the lock is free, or until then: PQ_TIMED_OUT. */
typedef pq_code attempt(void *asked);
HIDDEN pq_code flatpq_try_again(attempt *tries, void *asked, const pq_queue *queue, uint64_t until, uint32_t kind);
INLINE pq_code flatpq_try(attempt *tries, void *asked, const pq_queue *queue, uint64_t until) {
    pq_code code = tries(asked);
    return LIKELY(code != LOCK_HELD) ? code : flatpq_try_again(tries, asked, queue, until, CALL);
}

/*
 * shutting.c
 */
HIDDEN pq_code flatpq_shut_first(pq_member *member);

/* Before each try of a request: where a shut waits it comes first. LOCK_HELD, PQ_UNARCHIVED: it still waits, and so does the request. */
INLINE pq_code flatpq_before(pq_member *member) {
    flatpq_pace.calls++;
    return LIKELY(__atomic_load_n(&member->queue->is_shut, __ATOMIC_RELAXED) != SHUT_WAITS) ? PQ_OK : flatpq_shut_first(member);
}

/*
 * calls.c: requests.
 */
HIDDEN pq_code flatpq_push(pq_member *member, pq_item item, uint64_t until, core_answer *answer); /* it does not wait for room */
HIDDEN pq_code flatpq_take_first(pq_member *member, uint64_t priority, uint64_t until, core_answer *answer);
HIDDEN pq_code flatpq_refusal(uint32_t kind); /* what an answer of this kind comes to, which refuses the request */
HIDDEN pq_code flatpq_looked(pq_member *member, const core_answer *answer); /* what such a look comes to that was so answered; it wakes */
HIDDEN void flatpq_return_first(pq_code code, const core_answer *answer, pq_item *item, uint64_t *number);
INLINE pq_code flatpq_polled(pq_code code) { /* what such a look comes to in a call that waits for no item: it doesn't return the end */
    return code == PQ_SHUT ? PQ_EMPTY : code;
}

/*
 * waking.c: those that wait are woken.
 */

/* A waiter's word. */
enum { AWAKE = 0, SLEEPING = 1, LISTENS = 2, WOKEN = 3, NOTIFYING = 4, AWAITED = 5 };

HIDDEN void flatpq_deliver(pq_queue *queue, uint64_t wakes); /* these numbers are woken */
HIDDEN void flatpq_wake_after(pq_member *member);
HIDDEN int flatpq_claim(waiter *it); /* no thread notifies it from now on. 1: none has */
HIDDEN void flatpq_hold(pq_queue *queue, uint64_t no_more, uint64_t number);
HIDDEN void flatpq_hand_on(pq_queue *queue);

/* Copies an item that a proved call has just written, by its two numbers: one load of 16 bytes would wait for both stores. */
INLINE void flatpq_copy(pq_item *to, const volatile pq_item *from) {
    to->priority = from->priority;
    to->value = from->value;
}

/* After each proved call that may have carried requests out. */
INLINE void flatpq_carried_out(pq_member *member, const core_answer *answer) {
    if (!LIKELY((answer->owes_wake | __atomic_load_n(&member->queue->gone, __ATOMIC_RELAXED)) == 0)) {
        flatpq_wake_after(member);
    }
}

/*
 * waiting.c: a thread waits for an item, or for room. listening.c: it listens.
 */
enum { ROOM = 0, ANY = 1, DUE = 2, UP_TO = 3, ALARM = 4, ROOM_TO_LISTEN = 5 };

typedef struct wait {
    pq_queue *queue;
    pq_member *member; /* by which it makes its next step; NULL: the thread has none */
    own *mine;
    int is_own;
    uint32_t wants;    /* ANY, .. */
    pq_item item;      /* which it pushes; or its priority is that up to which it takes */
    core_answer *answer;
    uint64_t until;
    uint64_t number;       /* under which it waits; 0: it has none */
    uint64_t listening;    /* under which its joined member listens meanwhile; 0: it does not */
    int is_in;             /* its entry may be in the list */
    int watches;           /* it is to come back by itself once the first item is due */
    uint64_t *listens;     /* where it stands that it listens, */
    void (*notify)(void *context);
    void *context;
} wait;

INLINE waiter *flatpq_waiter_of(const wait *it) {
    return &it->queue->waiters[__builtin_ctzll(it->number)];
}
INLINE int flatpq_is_over(pq_code code) { /* it waits for nothing more */
    return code != PQ_EMPTY && code != PQ_NOT_DUE && code != PQ_FULL;
}
HIDDEN int flatpq_take_number(wait *it); /* 0: none is free */
HIDDEN void flatpq_call_unnumbered(pq_queue *queue, int most); /* so many of each kind */
HIDDEN void flatpq_give_numbers(pq_queue *queue, uint64_t numbers);
HIDDEN pq_code flatpq_begin_wait(wait *it, pq_member *member);
HIDDEN pq_code flatpq_step(wait *it, uint32_t word, uint64_t until);
HIDDEN void flatpq_end_wait(wait *it);     /* its entry leaves */
HIDDEN void flatpq_wait_no_more(wait *it); /* it is counted as waiting no more. Without a member the queue may be gone after this. */
HIDDEN pq_code flatpq_push_to_room(pq_member **member, own **mine, pq_item item, uint64_t until, core_answer *answer);
HIDDEN uint64_t flatpq_due_time(const pq_queue *queue, uint64_t priority); /* at which an item of this priority is due */
HIDDEN uint64_t flatpq_due_now(const pq_queue *queue);                     /* the greatest priority that is due */
HIDDEN int flatpq_unlisten(wait *it); /* 1: it listened, and was not notified */

/*
 * durable.c: threads wait until an entry is archived.
 */
HIDDEN void flatpq_count_archived(pq_queue *queue, uint64_t archived);
HIDDEN void flatpq_end_awaiting(pq_queue *queue); /* the queue is closed or freed */

/*
 * journal.c
 */
HIDDEN pq_journal *flatpq_new_journal(void);
HIDDEN void flatpq_fill_journal(pq_journal *made, core proved);
enum { CHECKSUM_LENGTH = 9 };
HIDDEN char *flatpq_put_checksum(char *at, const char *text, size_t length); /* a space, and the checksum of a text of this length */

#endif
