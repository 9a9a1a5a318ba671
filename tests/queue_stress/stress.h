/* What the parts of queue_stress share: numbers at random, the answers of a thread, and the audit of a round. */
#ifndef STRESS_H
#define STRESS_H

#define _GNU_SOURCE
#include "flatpq.h"

#include <pthread.h>
#include <stdio.h>
#include <stdlib.h>
#include <string.h>

enum { MOST_THREADS = 80, ROOM = 65536 };

/* Numbers at random, the same of the same seed. */
typedef struct numbers {
    uint64_t state;
} numbers;

static inline uint64_t any(numbers *it) {
    uint64_t drawn = it->state += UINT64_C(0x9E3779B97F4A7C15);
    drawn = (drawn ^ drawn >> 30) * UINT64_C(0xBF58476D1CE4E5B9);
    drawn = (drawn ^ drawn >> 27) * UINT64_C(0x94D049BB133111EB);
    return drawn ^ drawn >> 31;
}

static inline uint32_t below(numbers *it, uint32_t bound) {
    return (uint32_t)((any(it) >> 32) * bound >> 32);
}

static inline numbers numbers_of(uint64_t seed, uint64_t stream) {
    numbers first = { seed ^ stream * UINT64_C(0xD1342543DE82EF95) };
    numbers it = { any(&first) };
    return it;
}

/* The answer to a request: the number of its entry, or 0 where the call doesn't say it, what the entry has to say, and the greatest number that
   any call had returned when this one began. */
typedef struct answer {
    uint64_t number;
    uint32_t request, reply;
    pq_item item;
    uint64_t seen;
} answer;

/* What a thread did: the answers that it got, in this order; how many of its requests were refused since the journal is full; and
   the entries that it archived. Those of a joined member have one place, and serials in turn. */
typedef struct outcome {
    answer *answers;
    size_t count, room;
    uint64_t full, calls;
    int has_joined;
    pq_entry *archive;
    size_t archived;
    const char *wrong; /* what a call returned that it may not return */
    uint64_t seen;     /* when its last call began */
} outcome;

/* The greatest number that a call has returned in this round. These make no order among threads but for this word. */
extern uint64_t greatest;

static inline void begins(outcome *it) {
    it->seen = __atomic_load_n(&greatest, __ATOMIC_RELAXED);
}

static inline void add(outcome *it, uint64_t number, uint32_t request, uint32_t reply, pq_item item) {
    if (it->count == it->room) {
        it->room = 2 * it->room + 64;
        it->answers = (answer *)realloc(it->answers, it->room * sizeof *it->answers);
    }
    answer made = { number, request, reply, item, it->seen };
    uint64_t last = __atomic_load_n(&greatest, __ATOMIC_RELAXED);
    while (last < number && !__atomic_compare_exchange_n(&greatest, &last, number, 0, __ATOMIC_RELAXED, __ATOMIC_RELAXED)) {
    }
    it->answers[it->count++] = made;
}

/* Copies the entries of a journal, after those that were copied before. */
pq_entry *copied(const pq_journal *journal, pq_entry *entries, size_t *count);

/* What is wrong with a round: its journal, the items that are left, the threads, and how many entries it has room for; NULL if nothing. */
const char *audited(const pq_entry *entries, size_t count, const pq_item *left, size_t left_count, const outcome *all, uint32_t threads,
                    uint64_t room);

/* Whether the audit finds each of some faults. */
int finds_faults(void);

/* Closes the queue of a round, and audits it; writes its journal where something is wrong, or where it is asked for. */
const char *judged(pq_queue *queue, const outcome *all, uint32_t threads, uint64_t room, int is_left_nothing);

/* Play a round: what is wrong, or NULL. *calls grows by how many calls were made. */
const char *plays_calls(uint64_t seed, uint32_t round, uint64_t *calls);
const char *plays_waits(uint64_t seed, uint32_t round, uint64_t *calls);

/* Where the journal of a round that did not match is written, and that of the last round where it is asked for. */
typedef struct keeper {
    const char *path;
    int is_named, is_last, is_kept;
} keeper;
extern keeper kept;

/* Ends the program where the machine refuses a thread or memory. */
static inline void need(int holds, const char *what) {
    if (!holds) {
        fprintf(stderr, "queue_stress: %s\n", what);
        exit(1);
    }
}

#endif
