/*
 * Included before each unchanged source of the library (-include). Each atomic access, lock, system call and proved call in it becomes a point,
 * at which the scheduler may let another thread go on.
 */
#ifndef EXPLORE_HOOK_H
#define EXPLORE_HOOK_H

#include <sched.h>
#include <stdlib.h>
#include <sys/syscall.h>
#include <sys/timerfd.h>
#include <unistd.h>

#include "points.h"

#define POINT(what, at, access) scheduler_point(what, (const void *)(at), access, __FILE__, __LINE__)

#define __atomic_load_n(p, o)                                  \
    ({                                                         \
        POINT("load " #p, p, READS);                           \
        __auto_type seen_now = __atomic_load_n(p, o);          \
        system_forward(p, sizeof seen_now, (void *)&seen_now); \
        seen_now;                                              \
    })
/* Of the relaxed stores those of a record's owner are delayed, which a barrier is to order (own.c). */
#define IS_OF_OWNER(text) (__builtin_strstr(text, "busy") != NULL)
#define CHOICE(what, at, access) scheduler_choice(what, (const void *)(at), access, __FILE__, __LINE__)
/* A step that leaves the word as it is reads it alone. */
#define STEP(at, changes) (system_drain(), scheduler_step((const void *)(at), (changes) ? WRITES : READS))
#define __atomic_store_n(p, v, o)                                                          \
    ({                                                                                     \
        __typeof__(*(p)) stored = (v);                                                     \
        CHOICE("store " #p, p, WRITES);                                                    \
        if ((o) == __ATOMIC_SEQ_CST) {                                                     \
            STEP(p, *(p) != stored);                                                       \
            __atomic_store_n(p, stored, __ATOMIC_SEQ_CST);                                 \
        } else {                                                                           \
            scheduler_step((const void *)(p), WRITES);                                     \
            system_store((uint32_t *)(p), sizeof *(p), (uint32_t)stored, IS_OF_OWNER(#p)); \
        }                                                                                  \
    })
#define __atomic_exchange_n(p, v, o)       \
    ({                                     \
        __typeof__(*(p)) put = (v);        \
        CHOICE("exchange " #p, p, WRITES); \
        STEP(p, *(p) != put);              \
        __atomic_exchange_n(p, put, o);    \
    })
#define __atomic_fetch_add(p, v, o) (POINT("add " #p, p, WRITES), system_drain(), __atomic_fetch_add(p, v, o))
#define __atomic_fetch_sub(p, v, o) (POINT("sub " #p, p, WRITES), system_drain(), __atomic_fetch_sub(p, v, o))
#define __atomic_fetch_or(p, v, o) (POINT("or " #p, p, WRITES), system_drain(), __atomic_fetch_or(p, v, o))
#define __atomic_fetch_and(p, v, o) (POINT("and " #p, p, WRITES), system_drain(), __atomic_fetch_and(p, v, o))
#define __atomic_compare_exchange_n(p, e, v, w, s, f) \
    (CHOICE("compare " #p, p, WRITES), STEP(p, *(p) == *(e)), __atomic_compare_exchange_n(p, e, v, w, s, f))
#define __atomic_thread_fence(o) (POINT("fence", NULL, NOTHING), system_drain(), __atomic_thread_fence(o))
#define pthread_mutex_lock(m) (CHOICE("lock " #m, m, LOCKS), system_lock(m))
#define pthread_mutex_trylock(m) (POINT("trylock " #m, m, TRIES_LOCK), system_try_lock(m))
#define pthread_mutex_unlock(m) (POINT("unlock " #m, m, UNLOCKS), system_unlock(m))
#define pthread_mutex_destroy(m) system_destroy(m)
#define pthread_key_create(k, f) system_key(k, f)
#define pthread_setspecific(k, v) system_set(v)
#define syscall(...) system_call(__FILE__, __LINE__, __VA_ARGS__)
#define clock_gettime(c, t) system_clock(t)
#define sched_yield() (POINT("yield", NULL, NOTHING), 0)
#define timerfd_settime(t, f, a, b) system_set_timer(t, a)
#define free(p) (POINT("free " #p, p, FREES), free(p))

/* A proved call is one step. Where a scenario holds the lock, others may find it held before that step and after it. */
#define FIRST(first, ...) first
#define TRIES_TO(ends, call, ...) (CHOICE(#call, &proved_core, WRITES), proved_begins(FIRST(__VA_ARGS__), 1) ? ends(call) : LOCK_HELD)
#define TRIES(...) TRIES_TO(proved_ends, __VA_ARGS__)
#define pq_core_try_push(...) TRIES(pq_core_try_push(__VA_ARGS__), __VA_ARGS__)
#define pq_core_try_pop(...) TRIES(pq_core_try_pop(__VA_ARGS__), __VA_ARGS__)
#define pq_core_try_peek(...) TRIES(pq_core_try_peek(__VA_ARGS__), __VA_ARGS__)
#define pq_core_post(m, r, p, v) (POINT("pq_core_post", &proved_core, WRITES), proved_post(m, r, p, v))
#define pq_core_step_answer(m, a) (CHOICE("pq_core_step_answer", &proved_core, WRITES), proved_answer(m, a))
#define pq_core_take_or_wait(...) TRIES(pq_core_take_or_wait(__VA_ARGS__), __VA_ARGS__)
#define pq_core_push_or_wait(...) TRIES(pq_core_push_or_wait(__VA_ARGS__), __VA_ARGS__)
#define pq_core_leave(...) TRIES_TO(proved_ends_alone, pq_core_leave(__VA_ARGS__), __VA_ARGS__)
#define pq_core_try_pop_or_look(...) TRIES(pq_core_try_pop_or_look(__VA_ARGS__), __VA_ARGS__)
#define pq_core_try_remove(...) TRIES(pq_core_try_remove(__VA_ARGS__), __VA_ARGS__)
#define pq_core_try_reschedule(...) TRIES(pq_core_try_reschedule(__VA_ARGS__), __VA_ARGS__)
#define pq_core_try_count(...) TRIES(pq_core_try_count(__VA_ARGS__), __VA_ARGS__)
#define pq_core_try_shut(...) TRIES(pq_core_try_shut(__VA_ARGS__), __VA_ARGS__)
#define pq_core_try_push_many(...) TRIES(pq_core_try_push_many(__VA_ARGS__), __VA_ARGS__)
#define pq_core_try_pop_many(...) TRIES(pq_core_try_pop_many(__VA_ARGS__), __VA_ARGS__)
#define pq_core_archive(...) TRIES(pq_core_archive(__VA_ARGS__), __VA_ARGS__)
/* Only this thread reads and writes its member's mask. */
#define pq_core_take_wakes(m) (proved_begins(m, 0), pq_core_take_wakes(m))

#endif
