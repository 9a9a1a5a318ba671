/*
 * What the library calls in place of the system: mutexes, futexes, barriers, the clock, timers, and the key whose destructor ends a thread.
 *
 * In random schedules of odd seeds the stores to a record's owner's words wait in a buffer of their thread, until it makes a locked step, or a
 * barrier reaches it, or by chance. So a missing barrier shows.
 */
#include "explore.h"

#include <errno.h>
#include <linux/futex.h>
#include <linux/membarrier.h>
#include <stdarg.h>
#include <sys/syscall.h>

enum { NOBODY = 100 };
static const uint64_t second = 1000000000;

int has_late_stores, refuses_barriers, refuses_keys, waits_for_archive;
static void (*thread_ends)(void *);

void system_begin(void) {
    refuses_barriers = refuses_keys = waits_for_archive = 0;
}

/*
 * Stores.
 */

static void drain(fiber *it) {
    for (int i = 0; i < it->late_count; i++) {
        *it->late[i].at = it->late[i].value;
    }
    it->late_count = 0;
}

void system_drain(void) {
    if (me != NULL) {
        drain(me);
    }
}

void system_store(uint32_t *at, size_t size, uint32_t value, int may_be_late) {
    if (size != sizeof value) {
        fail("a store of %zu bytes: the explorer delays those of %zu alone", size, sizeof value);
    }
    if (me != NULL && may_be_late && value == 0) {
        me->calls++; /* the thread gives its own member away: where its call gets one again, that is another use (proved.c) */
    }
    if (me == NULL || !has_late_stores || !may_be_late) {
        *at = value;
        return;
    }
    if (me->late_count == MOST_LATE) {
        drain(me);
    }
    me->late[me->late_count].at = at;
    me->late[me->late_count++].value = value;
}

void system_forward(const void *at, size_t size, void *value) {
    for (int i = 0; me != NULL && size == sizeof(uint32_t) && i < me->late_count; i++) {
        if (me->late[i].at == at) {
            *(uint32_t *)value = me->late[i].value;
        }
    }
}

/*
 * Mutexes: the first number is 0, or who has it.
 */

static int mine(void) {
    return me != NULL ? 1 + index_of(me) : NOBODY;
}

int system_lock(pthread_mutex_t *mutex) {
    int *owner = (int *)mutex;
    system_drain();
    while (*owner != 0) {
        if (*owner == mine()) {
            fail("a thread locks a mutex that it has");
        }
        if (me != NULL && !is_random) {
            races_block(index_of(me), mutex);
        }
        block(ON_MUTEX, mutex, PQ_FOREVER);
    }
    scheduler_step(mutex, LOCKS);
    *owner = mine();
    return 0;
}

int system_try_lock(pthread_mutex_t *mutex) {
    int *owner = (int *)mutex;
    system_drain();
    if (*owner != 0) {
        return EBUSY;
    }
    *owner = mine();
    return 0;
}

int system_unlock(pthread_mutex_t *mutex) {
    system_drain();
    if (*(int *)mutex != mine()) {
        fail("a thread unlocks a mutex that it has not");
    }
    *(int *)mutex = 0;
    return 0;
}

int system_destroy(pthread_mutex_t *mutex) {
    if (*(int *)mutex != 0) {
        fail("a mutex is destroyed that is held");
    }
    return 0;
}

/*
 * The clock, sleeping and waking.
 */

int system_clock(struct timespec *time) {
    const uint64_t spin = 1500;
    uint64_t to;
    if (me != NULL) {
        scheduler_choice("clock", &now, me->found_held || next_time() != PQ_FOREVER ? WRITES : READS, __FILE__, __LINE__);
        to = now;
        if (me->found_held) {
            me->found_held = 0;
            to = now + spin; /* so a spin ends */
        } else if (!is_random && next_time() != PQ_FOREVER && choose_costly()) {
            to = next_time();
        }
        scheduler_step(&now, to != now ? WRITES : READS);
        if (to != now) {
            pass_time(to);
        }
    }
    time->tv_sec = (time_t)(now / second);
    time->tv_nsec = (long)(now % second);
    return 0;
}

/* No thread sleeps past the deadline of its call, but until one that wakes it is done with that. */
static void check_deadline(uint32_t seen, uint64_t until) {
    const uint64_t late = 50000, latest = me->limit > now ? me->limit : now;
    int awaits_waker = seen == AWAITED && until == PQ_FOREVER;
    if (me->limit != PQ_FOREVER && !awaits_waker && (until == PQ_FOREVER || until > latest + late)) {
        fail("a thread sleeps until %llu, and its deadline is %llu, and now %llu", (unsigned long long)until, (unsigned long long)me->limit,
             (unsigned long long)now);
    }
}

static void nap(uint64_t until) {
    if (me->limit != PQ_NOW && now > me->limit && ++me->late_naps > 3) {
        fail("a thread naps on after its deadline");
    }
    block(NAPS, NULL, proved_naps_until(until));
}

static uint64_t until_of(const struct timespec *time) {
    return time != NULL ? (uint64_t)time->tv_sec * second + (uint64_t)time->tv_nsec : PQ_FOREVER;
}

static void futex(const char *file, int line, uint32_t *word, int what, uint32_t value, const struct timespec *time) {
    const uint64_t farthest = 900000 * second;
    const uint64_t until = until_of(time);
    const int command = what & FUTEX_CMD_MASK;
    if (me == NULL && command != FUTEX_WAKE) {
        fail("nobody can go on, and the library sleeps");
    }
    if (command == FUTEX_WAKE) {
        scheduler_point("wake", word, WRITES, file, line);
        system_drain();
        wake_first(word, value);
    } else if (command == FUTEX_WAIT) {
        scheduler_point("nap", &now, READS, file, line);
        system_drain();
        check_deadline(value, now + until);
        nap(now + until);
    } else {
        scheduler_point("sleep", word, WRITES, file, line);
        system_drain();
        check_deadline(value, until > now + farthest ? PQ_FOREVER : until);
        if (*word == value && is_to_come(until)) {
            block(ON_WORD, word, until > now + farthest ? PQ_FOREVER : until);
        }
    }
}

/* Its words: what it waits at, how many, no flags, and until when. */
static long nap_exactly(const char *file, int line, va_list *all) {
    const struct timespec *end;
    (void)va_arg(*all, const void *), (void)va_arg(*all, int), (void)va_arg(*all, int);
    end = va_arg(*all, const struct timespec *);
    scheduler_point("nap", &now, READS, file, line);
    system_drain();
    check_deadline(0, until_of(end));
    nap(until_of(end));
    errno = ETIMEDOUT;
    return -1;
}

long system_call(const char *file, int line, long number, ...) {
    va_list all;
    long result = 0;
    va_start(all, number);
    if (number == SYS_futex) {
        uint32_t *word = va_arg(all, uint32_t *);
        int what = va_arg(all, int);
        uint32_t value = va_arg(all, uint32_t);
        futex(file, line, word, what, value, va_arg(all, const struct timespec *));
    } else if (number == SYS_futex_waitv) {
        result = nap_exactly(file, line, &all);
    } else if (number == SYS_membarrier) {
        scheduler_point("barrier", NULL, NOTHING, file, line);
        result = va_arg(all, int) == MEMBARRIER_CMD_PRIVATE_EXPEDITED && refuses_barriers ? -1 : 0;
        for (int i = 0; i < fiber_count && result == 0; i++) {
            drain(&fibers[i]);
        }
    } else if (number == SYS_write) {
        result = descriptor_write(va_arg(all, int));
    } else {
        fail("a system call, %ld, of which the explorer knows nothing", number);
    }
    va_end(all);
    return result;
}

int system_set_timer(int timer, const struct itimerspec *at) {
    const uint64_t time = (uint64_t)at->it_value.tv_sec * second + (uint64_t)at->it_value.tv_nsec;
    uint64_t *set = timer_of(timer);
    scheduler_point("timer", set, WRITES, __FILE__, __LINE__);
    *set = time == 0 ? PQ_FOREVER : time;
    for (int i = 0; i < fiber_count; i++) {
        if (fibers[i].state == SLEEPS && fibers[i].at == set) {
            fibers[i].until = *set;
            races_enable(i, me != NULL ? index_of(me) : i);
        }
    }
    return 0;
}

/*
 * The key.
 */

int system_key(pthread_key_t *key, void (*ends)(void *)) {
    *key = 0;
    thread_ends = ends;
    return 0;
}

int system_set(const void *value) {
    if (refuses_keys) {
        return ENOMEM;
    }
    if (me != NULL) {
        me->at_end = value;
    }
    return 0;
}

void end_thread(void) {
    const int rounds = 4; /* PTHREAD_DESTRUCTOR_ITERATIONS */
    for (int round = 0; round < rounds && me->at_end != NULL; round++) {
        const void *set = me->at_end;
        me->at_end = NULL;
        thread_ends((void *)set);
    }
    system_drain();
}
