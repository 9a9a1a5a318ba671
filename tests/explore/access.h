/*
 * The points of the explorer, in C and C++.
 */
#ifndef EXPLORE_ACCESS_H
#define EXPLORE_ACCESS_H

#ifdef __cplusplus
extern "C" {
#endif

/* What the step after a point does to the word there. FREES: to each word of the block. NOTHING: others see nothing of it. */
enum access { NOTHING, READS, WRITES, LOCKS, TRIES_LOCK, UNLOCKS, FREES };

void scheduler_choice(const char *what, const void *at, enum access access, const char *file, int line);
void scheduler_step(const void *at, enum access access);
void scheduler_point(const char *what, const void *at, enum access access, const char *file, int line);

#ifdef __cplusplus
}
#endif

#endif
