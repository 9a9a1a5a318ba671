/*
 * Which steps of an execution can change places: a preemption is tried only before a step that a later step of another thread depends on, and
 * that is not ordered before it by the steps between (dynamic partial-order reduction, Flanagan and Godefroid 2005; bounded by preemptions,
 * Coons, Musuvathi and McKinley 2013: where a thread blocks each other is tried).
 *
 * Steps depend on each other where they touch the same word, and one of them changes it. All proved calls touch one word. That a thread unlocks
 * is never before that another locks, so that race is between the two that lock. But a thread that blocks costs no preemption. So it is tried
 * before the unlock too, and one that blocks before the lock that it met.
 *
 * Time is a word. A thread reads it that looks at the clock, or falls asleep until some time; one that goes on since its time has come writes it, and
 * the word at which it sleeps.
 */
#include "explore.h"

#include <malloc.h>
#include <string.h>

enum { SLOTS = 1 << 12, MOST_ORDERS = 1 << 22 };

typedef struct moment {
    uint32_t of[MOST_FIBERS]; /* how many steps of each thread came before */
} moment;

/* A word, and the last step of each thread that read it, and the last that wrote it. */
typedef struct slot {
    uintptr_t at;
    unsigned epoch; /* of which execution it is */
    int writer;
    uint32_t write_step;
    uint32_t read_steps[MOST_FIBERS];
    place written, reads[MOST_FIBERS];
    moment writes, all;
} slot;

static slot slots[SLOTS], *listed[SLOTS];
static int listed_count;
static unsigned epoch;
static moment moments[MOST_FIBERS];

/* The orders of steps that executions had: a sum of each, and how many are different, where they are counted. */
int counts_orders;
long order_count;
static uint64_t order_sum, orders[MOST_ORDERS];

void races_begin(void) {
    epoch++;
    listed_count = 0;
    memset(moments, 0, sizeof moments);
    order_sum = 0;
}

static slot *find(uintptr_t at) {
    unsigned i = (unsigned)((at * 0x9e3779b97f4a7c15u) >> 52);
    while (slots[i].epoch == epoch && slots[i].at != at) {
        i = (i + 1) % SLOTS;
    }
    if (slots[i].epoch != epoch) {
        if (listed_count + 1 == SLOTS) {
            fail("an execution has more than %d words", SLOTS);
        }
        memset(&slots[i], 0, sizeof slots[i]);
        slots[i].at = at;
        slots[i].epoch = epoch;
        slots[i].writer = -1;
        listed[listed_count++] = &slots[i];
    }
    return &slots[i];
}

static void join(moment *to, const moment *from) {
    for (int i = 0; i < MOST_FIBERS; i++) {
        to->of[i] = to->of[i] > from->of[i] ? to->of[i] : from->of[i];
    }
}

/* Whether it was not the same thread, and nothing orders its step before this thread's next. */
static int is_race(int of, int other, uint32_t step) {
    return other != of && step > moments[of].of[other];
}

static void race_with_writer(int of, const slot *it) {
    if (it->writer >= 0 && is_race(of, it->writer, it->write_step)) {
        want(it->written, of);
    }
}

static void read_word(int of, slot *it) {
    race_with_writer(of, it);
    join(&moments[of], &it->writes);
    it->read_steps[of] = moments[of].of[of];
    it->reads[of] = here;
    join(&it->all, &moments[of]);
}

static void write_word(int of, slot *it) {
    race_with_writer(of, it);
    for (int i = 0; i < fiber_count; i++) {
        if (it->read_steps[i] > 0 && is_race(of, i, it->read_steps[i])) {
            want(it->reads[i], of);
        }
    }
    join(&moments[of], &it->all);
    it->writer = of;
    it->write_step = moments[of].of[of];
    it->written = here;
    memset(it->read_steps, 0, sizeof it->read_steps);
    it->writes = it->all = moments[of];
}

static void free_block(int of, const void *at) {
    uintptr_t from = (uintptr_t)at, to = from + (at != NULL ? malloc_usable_size((void *)at) : 0);
    for (int i = 0; i < listed_count; i++) {
        if (listed[i]->at >= from && listed[i]->at < to) {
            write_word(of, listed[i]);
        }
    }
}

/* The order of an execution is, of each step, how many of each thread came before it. */
static void add_to_order(int of) {
    uint64_t sum = (uint64_t)of + 1;
    for (int i = 0; i < MOST_FIBERS; i++) {
        sum = (sum ^ moments[of].of[i]) * 0x9e3779b97f4a7c15u;
        sum ^= sum >> 29;
    }
    order_sum += (sum * sum) ^ sum >> 17;
}

/* An execution has ended. */
void races_end(void) {
    uint64_t i = order_sum >> 42;
    while (orders[i] != 0 && orders[i] != order_sum) {
        i = (i + 1) % MOST_ORDERS;
    }
    order_count += counts_orders && orders[i] == 0;
    orders[i] = order_sum;
    if (order_count == MOST_ORDERS / 2) {
        fail("a scenario has more than %d orders", MOST_ORDERS / 2);
    }
}

/* A thread makes a step here. */
void races_note(int of, const void *at, enum access access) {
    const uintptr_t word = (uintptr_t)at, unlocks = word + 1;
    moments[of].of[of]++;
    if (access == READS) {
        read_word(of, find(word));
    } else if (access == WRITES) {
        write_word(of, find(word));
    } else if (access == LOCKS) {
        write_word(of, find(word));
        race_with_writer(of, find(unlocks));
        join(&moments[of], &find(unlocks)->all);
    } else if (access == UNLOCKS) {
        write_word(of, find(unlocks));
    } else if (access == TRIES_LOCK) {
        write_word(of, find(word));
        write_word(of, find(unlocks));
    } else if (access == FREES) {
        free_block(of, at);
    }
    if (counts_orders) {
        add_to_order(of);
    }
}

/* A thread finds this mutex locked, and blocks. */
void races_block(int of, const void *mutex) {
    race_with_writer(of, find((uintptr_t)mutex));
}

/* A thread has gone on only since another woke it. Where its time may come before that, it is tried. */
void races_enable(int woken, int by) {
    if (fibers[woken].until != PQ_FOREVER) {
        want(here, woken);
    }
    join(&moments[woken], &moments[by]);
}

/* Whether steps with these accesses depend on each other. */
int races_depend(const void *at, enum access access, const void *other, enum access as) {
    if (access == NOTHING || as == NOTHING) {
        return 0;
    }
    return access == FREES || as == FREES || (at == other && (access != READS || as != READS));
}
