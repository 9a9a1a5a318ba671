/*
 * How a call rests that finds the lock held: it spins, where there is more than one processor, and then naps.
 *
 * A thread holds the lock for less than a microsecond a request. So a call first tries the lock again, and then posts its request, if it has no
 * deadline (calls.c). In the end it naps between its tries.
 *
 * A thread that calls nearly all the time does not spin, and naps long. Where several do so, those that nap let one run on with all that it needs
 * in its processor's caches. So does a call that posts nothing, as a batch, which would take the lock each time. One that posts, of a thread that
 * works between its calls, naps short while each member may have a processor: then another serves it soon. It posts at once where calls come so
 * often that the thread which has the lock is to carry out many. Nor does a thread spin for some calls after spins that ended before the lock was
 * free, as where the thread that has the lock has no processor.
 *
 * A look for an item that is due is served by nobody, and the item is late already. So it tries often, and for long.
 */
#include "inside.h"

#include <sched.h>

/* For how long a call only tries the lock, and for how long it spins in all; and where an item is late. */
enum { TRIES = 1000, SPINS = 10000, SPINS_IF_LATE = 40000 };
/* How far apart a thread's calls are at least, where it spins; where it is served soon; and where it then tries the lock before it posts, while more
   than so many members are in use. */
enum { APART = 400, APART_IF_SERVED = 270, APART_TO_TRY = 1100, PAIR = 2 };
/* So many members may be of threads that don't call, as one that opened the queue. */
enum { IDLE = 1 };
/* How long a nap is: at least, and with a part for each member in use, so that fewer threads wake at a time; and for each where it is served soon. */
enum { NAP = 100000, NAP_OF_ALL = 50000, NAP_OF_EACH = 8000, SHORT_NAP_OF_EACH = 1250 };

__thread pace flatpq_pace __attribute__((tls_model("initial-exec")));

/* How far apart the thread's calls are: those since it last waited, and those before, which count less. */
static uint64_t apart(pace *it, uint64_t now) {
    const uint64_t most = 2000, full = 8;
    uint64_t calls = it->calls > 0 ? it->calls : 1; /* this one too */
    uint64_t mean = (now - it->waited) / calls;
    calls = calls < full ? calls : full;
    mean = mean < most ? mean : most;
    it->apart = it->waited == 0 ? most : ((full - calls) * it->apart + calls * mean) / full;
    return it->apart;
}

rest flatpq_rest_of(const pq_queue *queue, uint64_t until, uint32_t kind) {
    const uint64_t members = __atomic_load_n(&queue->out, __ATOMIC_RELAXED);
    const uint64_t nap = NAP_OF_ALL + members * NAP_OF_EACH;
    const int is_served = kind == MAY_POST && members <= flatpq_processors + IDLE;
    pace *calls = &flatpq_pace;
    rest made = { .until = until, .nap = nap > NAP ? nap : NAP, .pauses = 1, .is_late = kind == LOOK };
    if (flatpq_processors == 1 || until == PQ_NOW) {
        return made;
    }
    made.now = pq_now();
    if (until <= made.now || apart(calls, made.now) < (is_served ? APART_IF_SERVED : APART)) {
        return made;
    }
    made.nap = is_served || made.is_late ? members * SHORT_NAP_OF_EACH : made.nap;
    if (calls->skips > 0 && !made.is_late) {
        calls->skips--;
        return made;
    }
    made.posts = made.now + (is_served && members > PAIR && calls->apart < APART_TO_TRY ? 0 : TRIES);
    made.ends = made.now + (made.is_late ? SPINS_IF_LATE : SPINS);
    made.ends = until < made.ends ? until : made.ends;
    return made;
}

/* Pauses before the next try of a spin: 0 where that is over. */
int flatpq_spins(rest *it) {
    const uint32_t most_pauses = it->is_late ? 4 : 32, most_fails = 6;
    if (it->ends == 0) {
        return 0;
    }
    it->now = pq_now();
    if (it->now >= it->ends) {
        pace *calls = &flatpq_pace;
        it->ends = 0;
        if (!it->is_late) {
            calls->fails += calls->fails < most_fails;
            calls->skips = (1u << calls->fails) - 1;
        }
        return 0;
    }
    for (uint32_t i = 0; i < it->pauses; i++) {
        __builtin_ia32_pause();
    }
    it->pauses = it->pauses < most_pauses ? 2 * it->pauses : most_pauses;
    return 1;
}

/* Naps once, until the deadline at most: 0 where that has come. */
static int naps(rest *it) {
    uint64_t now = it->until == PQ_NOW ? 0 : pq_now(), end = now + it->nap;
    if (now >= it->until) {
        return 0;
    }
    it->nap = it->nap < NAP ? 2 * it->nap : it->nap;
    flatpq_nap(end < it->until ? end : it->until);
    return 1;
}

/* Counts the tries of a call that does not wait. */
static int insists(rest *it) {
    const uint32_t most = 64, until_yield = 8;
    if (++it->tries % until_yield == 0) {
        sched_yield();
    }
    return it->tries < most;
}

int flatpq_rests(rest *it) {
    return flatpq_spins(it) || (it->until == AT_ONCE ? insists(it) : naps(it));
}

void flatpq_rested(const rest *it) {
    if (flatpq_processors > 1) {
        pace *calls = &flatpq_pace;
        calls->fails = it->ends != 0 ? 0 : calls->fails;
        calls->calls = 0;
        calls->waited = pq_now();
    }
}

pq_code flatpq_try_again(attempt *tries, void *asked, const pq_queue *queue, uint64_t until, uint32_t kind) {
    rest resting = flatpq_rest_of(queue, until, kind);
    pq_code code = LOCK_HELD;
    while (code == LOCK_HELD && flatpq_rests(&resting)) {
        code = tries(asked);
    }
    flatpq_rested(&resting);
    return code == LOCK_HELD ? PQ_TIMED_OUT : code;
}
