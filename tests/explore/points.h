/*
 * What the library calls at its points, in place of the system and around the proved calls (hook.h).
 */
#ifndef EXPLORE_POINTS_H
#define EXPLORE_POINTS_H

#include <pthread.h>
#include <sys/timerfd.h>
#include <time.h>
#include "core.h"
#include "access.h"

/* system.c: what the library calls instead of the system. */
void system_drain(void); /* the stores that this thread has delayed are made */
void system_store(uint32_t *at, size_t size, uint32_t value, int may_be_late);
void system_forward(const void *at, size_t size, void *value); /* a thread sees its own delayed stores */
int system_lock(pthread_mutex_t *mutex);
int system_try_lock(pthread_mutex_t *mutex);
int system_unlock(pthread_mutex_t *mutex);
int system_destroy(pthread_mutex_t *mutex);
long system_call(const char *file, int line, long number, ...);
int system_clock(struct timespec *now);
int system_set_timer(int timer, const struct itimerspec *at);
int system_key(pthread_key_t *key, void (*ends)(void *));
int system_set(const void *value);

/* proved.c: what surrounds a proved call. */
extern const char proved_core; /* stands for all that a proved call reads and writes */
int proved_begins(const void *handle, int may_hold); /* 0: another thread holds the queue's lock */
pq_code proved_ends(pq_code code);
pq_code proved_ends_alone(pq_code code); /* it carries out nothing that was posted */
pq_code proved_post(core *member, uint32_t request, uint64_t priority, uint64_t value);
pq_code proved_answer(core *member, core_answer *answer);

#endif
