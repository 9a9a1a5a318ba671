/*
 * What the sources of the explorer share. run says what it does.
 */
#ifndef EXPLORE_H
#define EXPLORE_H

#include "inside.h"
#include "points.h"
#include "wrapping.h"

#include <ucontext.h>

enum { MOST_TIMERS = 8, MOST_LATE = 8 };
/* When an execution begins, in nanoseconds. */
enum { BEGIN = 1000000 };

enum state { READY, ON_MUTEX, ON_THREAD, ON_WORD, NAPS, SLEEPS, ENDED };

/* A thread of a scenario. */
typedef struct fiber {
    enum state state;
    enum call call;
    uint64_t until;  /* when it goes on by itself; PQ_FOREVER: never */
    uint64_t limit;  /* the deadline of its call */
    uint64_t number; /* the entry of AWAITS; the bound of LISTENS_FOR */
    uint64_t calls;  /* that it has begun */
    uint64_t slept;  /* which of all sleeps its last one was */
    uint64_t begun;  /* when its call began, as check.c counts */
    const void *at;  /* the mutex, thread or word for which it waits */
    int priority;    /* of a random schedule */
    int is_after_end, is_after_shut; /* a take had returned the end, or a shut had returned, before its call began */
    int found_held;  /* it spins */
    uint64_t posts_until; /* its call finds the lock held, posts its request, and stays until then; 0: it does neither */
    const void *stays_by;  /* the member by which it stays so */
    int late_naps;   /* since the deadline of its call */
    int late_count;
    struct {
        uint32_t *at, value;
    } late[MOST_LATE];  /* stores that it has made, and others do not see yet */
    const void *at_end; /* what it set for the destructor of its key */
    thread owns;        /* what the library keeps of each thread */
    pace paces;
    char *stack;
    ucontext_t context;
} fiber;

/* scheduler.c: fibers, and virtual time. `me` is NULL outside of all fibers. */
extern fiber *me, fibers[MOST_FIBERS];
extern int fiber_count;
extern uint64_t timers[MOST_TIMERS];
int index_of(const fiber *it);
uint64_t next_time(void); /* when the first of those that sleep goes on; PQ_FOREVER: none does */
int is_asleep(const fiber *it);
int is_ready(const fiber *it);
void pass_time(uint64_t to);
void block(enum state state, const void *at, uint64_t until);
void wake_first(const void *word, uint32_t most); /* so many of those that sleep there, who slept first */
void execute(void);
void print_trace(void);

/* search.c: which fiber goes on. */
extern int is_random, is_redundant;
uint64_t next_random(void);
/* Where another thread may make a step in place of the next: by which choice before that, and by which one its thread goes on; -1: by none. */
typedef struct place {
    int choice, began;
} place;
extern place here;
fiber *choose_fiber(fiber *mine, const void *at, enum access access);
int choose_costly(void); /* whether this, which costs a preemption, happens now */
void search_resumes(int which);
void search_steps(int which, const void *at, enum access access);
void search_passes_time(void);
void want(place before, int thread);
void print_replay(void);

/* races.c: which steps can change places. */
extern int counts_orders;
extern long order_count;
void races_begin(void);
void races_end(void);
void races_note(int of, const void *at, enum access access);
void races_block(int of, const void *mutex);
void races_enable(int woken, int by);
int races_depend(const void *at, enum access access, const void *other, enum access as);

/* system.c, proved.c */
extern int has_late_stores, refuses_barriers, refuses_keys, waits_for_archive, is_held;
int proved_has_posts(void);
uint64_t proved_naps_until(uint64_t until);
void system_begin(void);
void proved_begin(void);
void end_thread(void); /* the destructor of its key runs */

/* descriptors.c */
void descriptors_begin(void);
void descriptors_end(void);
uint64_t *timer_of(int descriptor);
long descriptor_write(int descriptor);

/* scenario.c: what is played. */
typedef struct scenario {
    const char *name;
    char *opening, *threads[MOST_FIBERS];
    int count, holds;     /* the lock is held around each proved call */
    int answers_early;    /* before the wakes for an answer are counted */
    const wrapper *wraps; /* by which its queue is opened */
} scenario;
extern scenario played;
void scenario_read(const char *name, const char *text);
void scenario_begin(void);
void scenario_run(int which);

/* requests.c, listeners.c, members.c: what a thread can do. */
extern const word request_words[], listener_words[], member_words[];
extern pq_member *used[MOST_FIBERS]; /* the member of each thread */
void requests_begin(void);
void listeners_begin(void);
void members_begin(void);
pq_item new_item(uint64_t priority);
void put(uint64_t priority);
void use_entries(uint64_t count);
void use_members(int joined);
void give_back(int which);
void while_refused(pq_code (*does)(int which, const uint64_t *numbers), int which, const uint64_t *numbers); /* for the archive */

/* check.c, journal.c: what holds whenever nobody can run, and at the end of each execution. */
typedef struct done {
    uint32_t request;
    pq_code code;
    pq_item item;
    uint64_t number;
    uint64_t begun, ended; /* counted as they come */
} done;
/* SIZED: a request of the size: its item has that, and the peak. LEAVES_NONE: a batch of pops that had room for more, with its last entry and its
   bound. PEEKED: its number is how many entries came before it. */
enum { SIZED = 100, LEAVES_NONE, PEEKED };
enum { MOST_DONE = 64 };
extern pq_queue *queue;
extern enum ending { STANDS, CLOSED, FREED } ending; /* what the scenario has done to its queue */
void check_begin(pq_options options, int is_observed);
void check_settled(void);
void check_end(void);
void check_shut_at_end(void);
extern uint64_t numbers_at_first; /* that are in use */
int is_journal_full(void);
void end_observing(void);
void journal_begin(void);
uint64_t journal_kept(void); /* how many entries archives had */
int journal_has_shut(void); /* whether one of these is that of the shut */
void check_archive(const pq_journal *journal);
void check_journal(const pq_journal *journal, const done *all, int count, int heard_end);
uint64_t journal_shut(void); /* the entry that shut the queue; 0: none did */

#endif
