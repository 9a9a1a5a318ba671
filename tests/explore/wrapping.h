/*
 * What the explorer and its words in other languages have of each other: words.cpp, of the headers in C++, and rust/words.rs, of the crate.
 */
#ifndef EXPLORE_WRAPPING_H
#define EXPLORE_WRAPPING_H

#include "access.h"
#include "flatpq.h"

#include <stdint.h>

#ifdef __cplusplus
extern "C" {
#endif

/* In which call a thread of a scenario is: check.c knows by it whether it could go on. SERVES: it ends once all others have. */
enum call { NO_CALL, CALLS, TAKES, TAKES_DUE, PUSHES, LISTENS_FOR, LISTENS_FOR_DUE, HAS_ALARM, AWAITS, SERVES };

/* What a thread can do, by a word and up to three numbers. One that is left out is PQ_FOREVER. */
typedef struct word {
    const char *text;
    void (*does)(int which, const uint64_t *numbers);
} word;

/* A wrapper of the library. A scenario has it by its name, and its words before those in C. The last of each table has no text. */
typedef struct wrapper {
    const char *name;
    const word *words;
    void (*opens)(const pq_options *options); /* the scenario's queue */
    void (*thread_ends)(int which);           /* what a thread has of the queue ends */
    void (*settles)(void);                    /* nobody can go on */
    pq_code (*shuts)(void);
    void (*frees)(void);                      /* the queue, which is closed */
} wrapper;
extern const wrapper cpp_wrapper;
extern const wrapper rust_wrapper __attribute__((weak)); /* is linked where there is a compiler for it */

enum { MOST_FIBERS = 8 };
extern uint64_t now, executions;
extern int is_over; /* all threads have ended but those that serve */
int scheduler_thread(void); /* -1 outside of all */
void wake_word(const void *word);
void sleep_at(const uint32_t *at, uint32_t seen, uint64_t until);
int is_to_come(uint64_t time);
void nap_for(uint64_t nanoseconds);
void fail(const char *why, ...) __attribute__((format(printf, 1, 2), noreturn));

/* The number of an entry that its call does not return: then the item, whose value is no other's, says which one it is. */
#define UNNUMBERED UINT64_MAX
uint64_t next_value(void);
void check_call_begins(enum call call, uint64_t limit, uint64_t number);
void check_call_ends(uint32_t request, pq_code code, pq_item item, uint64_t number);

/* Sleeps until the descriptor of an event or a timer is readable, or until then: whether it is. */
int await_readable(int descriptor, uint64_t until);

#ifdef __cplusplus
}
#endif

#endif
