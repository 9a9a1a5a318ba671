/*
 * The threads of a scenario are fibers of one thread, and one of them runs at a time: search.c chooses at each point which one. Time is virtual.
 * It passes while nobody can run, where a thread spins, and where a schedule chooses that.
 */
#include "explore.h"

#include <signal.h>
#include <stdarg.h>
#include <stdio.h>
#include <stdlib.h>
#include <string.h>
#include <unistd.h>

#ifdef IS_SANITIZED
#include <sanitizer/common_interface_defs.h>
#endif

enum { STACK = 1 << 18, MOST_STEPS = 100000 };

fiber *me, fibers[MOST_FIBERS];
int fiber_count, is_over;
uint64_t now, executions, timers[MOST_TIMERS];
static ucontext_t outside;
static thread first_thread;
static pace first_pace;

static struct step {
    int fiber, line;
    const char *what, *file;
    uint64_t now;
} steps[MOST_STEPS];
static int step_count;
static uint64_t sleep_count; /* how many times threads have slept */

/*
 * Failures.
 */

/* The last steps of the schedule, and how it is played again. */
void print_trace(void) {
    const int most = 1000;
    int shown = -1;
    print_replay();
    for (int i = step_count > most ? step_count - most : 0; i < step_count; i++) {
        const struct step *it = &steps[i];
        const char *file = strrchr(it->file, '/');
        if (it->fiber != shown) {
            printf("  -- thread %d (%s) at %llu ns\n", it->fiber, played.threads[it->fiber], (unsigned long long)it->now);
            shown = it->fiber;
        }
        printf("     %s:%d %.70s\n", file != NULL ? file + 1 : it->file, it->line, it->what);
    }
    fflush(stdout);
}

void fail(const char *why, ...) {
    static const char *const states[] = { "ready", "on a mutex", "on a thread", "on a word", "naps", "sleeps", "ended" };
    va_list all;
    va_start(all, why);
    printf("FAILED %s: ", played.name);
    vprintf(why, all);
    printf("\n");
    va_end(all);
    for (int i = 0; i < fiber_count; i++) {
        printf("  thread %d (%s): %s, until %llu\n", i, played.threads[i], states[fibers[i].state], (unsigned long long)fibers[i].until);
    }
    print_trace();
    _exit(1);
}

/* A sanitizer found something. */
static void dies(void) {
    printf("FAILED %s: see below\n", played.name);
    print_trace();
}

static void crashes(int signal) {
    dies();
    _exit(signal);
}

/*
 * Switching.
 */

int index_of(const fiber *it) {
    return (int)(it - fibers);
}

static void arrive(void *fake) {
#ifdef IS_SANITIZED
    __sanitizer_finish_switch_fiber(fake, NULL, NULL);
#else
    (void)fake;
#endif
}

/* Says to AddressSanitizer which stack is next: that of a fiber, or where it is NULL the first one. */
static void depart(const fiber *from, const fiber *to, void **fake) {
#ifdef IS_SANITIZED
    static void *stack;
    static size_t size;
    if (stack == NULL) {
        pthread_attr_t attributes;
        pthread_getattr_np(pthread_self(), &attributes);
        pthread_attr_getstack(&attributes, &stack, &size);
        pthread_attr_destroy(&attributes);
    }
    __sanitizer_start_switch_fiber(from != NULL && from->state == ENDED ? NULL : fake, to != NULL ? to->stack : stack, to != NULL ? STACK : size);
#else
    (void)from, (void)to, (void)fake;
#endif
}

/* Lets this fiber go on, or where it is NULL the explorer. */
static void switch_to(fiber *to) {
    fiber *from = me;
    void *fake = NULL;
    if (from == to) {
        return;
    }
    if (from != NULL) {
        from->owns = flatpq_thread;
        from->paces = flatpq_pace;
    }
    if (to != NULL) {
        flatpq_thread = to->owns;
        flatpq_pace = to->paces;
        search_resumes(index_of(to));
    }
    me = to;
    depart(from, to, &fake);
    swapcontext(from != NULL ? &from->context : &outside, to != NULL ? &to->context : &outside);
    arrive(fake);
}

/* It sleeps in a call, or has ended. */
int is_asleep(const fiber *it) {
    return it->state == ENDED || it->state == SLEEPS || (it->state == ON_WORD && it->call != NO_CALL);
}

int is_ready(const fiber *it) {
    if (it->state == ON_MUTEX) {
        return *(const int *)it->at == 0;
    }
    if (it->state == ON_THREAD) {
        return is_asleep(it->at);
    }
    return it->state == READY || (it->state != ENDED && it->until <= now);
}

uint64_t next_time(void) {
    uint64_t next = PQ_FOREVER;
    for (int i = 0; i < fiber_count; i++) {
        const fiber *it = &fibers[i];
        if (it->state != READY && it->state != ON_MUTEX && it->state != ENDED && it->until > now && it->until < next) {
            next = it->until;
        }
    }
    return next;
}

void pass_time(uint64_t to) {
    now = to;
    search_passes_time();
}

/* Lets this fiber go on. Where its time has come, that is a step at the time, and at the word at which it sleeps. */
static void resume(fiber *it) {
    if ((it->state == ON_WORD || it->state == SLEEPS || it->state == NAPS) && !is_random) {
        races_note(index_of(it), &now, WRITES);
        search_passes_time();
        if (it->at != NULL) {
            races_note(index_of(it), it->at, WRITES);
        }
    }
    it->state = READY;
    switch_to(it);
}

/* Has others go on until this fiber can, or the explorer where nobody ever can. */
static void run_others(void) {
    fiber *mine = me;
    for (;;) {
        fiber *next = choose_fiber(NULL, NULL, NOTHING);
        if (next != NULL) {
            resume(next);
            return;
        }
        if (is_held && next_time() == PQ_FOREVER) {
            fail("nobody can go on, and the queue's lock is held");
        }
        me = NULL;
        check_settled();
        me = mine;
        if (next_time() == PQ_FOREVER) {
            switch_to(NULL);
            return;
        }
        pass_time(next_time());
    }
}

/* From now on those that sleep longer than that are not the next ones: they are tried before. */
static void sleep_before_others(uint64_t until) {
    scheduler_step(&now, READS);
    for (int i = 0; i < fiber_count && !is_random; i++) {
        if (fibers[i].state != READY && fibers[i].until != PQ_FOREVER && fibers[i].until >= until) {
            want(here, i);
        }
    }
}

void block(enum state state, const void *at, uint64_t until) {
    fiber *mine = me;
    if (mine == NULL) {
        fail("nobody can go on, and the library waits");
    }
    mine->calls += state == ON_WORD; /* a thread that sleeps may give its member up, and go on by another */
    mine->slept = ++sleep_count;
    if (until != PQ_FOREVER) {
        sleep_before_others(until);
    }
    mine->state = state;
    mine->at = at;
    mine->until = until;
    run_others();
    mine->at = NULL;
}

/* Of those that sleep at this word the one that has slept longest; NULL: none does. */
static fiber *first_asleep(const void *word) {
    fiber *first = NULL;
    for (int i = 0; i < fiber_count; i++) {
        fiber *it = &fibers[i];
        if (it->state == ON_WORD && it->at == word && (first == NULL || it->slept < first->slept)) {
            first = it;
        }
    }
    return first;
}

void wake_first(const void *word, uint32_t most) {
    fiber *it;
    while (most-- > 0 && (it = first_asleep(word)) != NULL) {
        it->state = READY;
        if (me != NULL) {
            races_enable(index_of(it), index_of(me));
        }
    }
}

void wake_word(const void *word) {
    wake_first(word, MOST_FIBERS);
}

/* Whether this time is to come. It is a step that reads the time. */
int is_to_come(uint64_t time) {
    if (time != PQ_NOW && time != PQ_FOREVER) {
        scheduler_step(&now, READS);
    }
    return time > now;
}

void nap_for(uint64_t nanoseconds) {
    block(NAPS, NULL, now + nanoseconds);
}

int scheduler_thread(void) {
    return me != NULL ? index_of(me) : -1;
}

static void record(const char *what, const char *file, int line) {
    const struct step it = { index_of(me), line, what, file, now };
    steps[step_count++] = it;
    if (step_count == MOST_STEPS) {
        fail("no end after %d steps", MOST_STEPS);
    }
}

/* A step of this thread comes next: who makes it says then what it does there. Outside of an execution nothing happens. */
void scheduler_choice(const char *what, const void *at, enum access access, const char *file, int line) {
    if (me == NULL) {
        return;
    }
    if (is_random && has_late_stores && next_random() % 4 == 0) {
        system_drain(); /* a processor makes a delayed store some time */
    }
    if (is_random || access != NOTHING) {
        fiber *next = choose_fiber(me, at, access);
        if (next != me) {
            resume(next);
        }
    }
    record(what, file, line);
    if (!is_random) {
        search_steps(index_of(me), at, access);
    }
}

void scheduler_step(const void *at, enum access access) {
    if (me != NULL && !is_random) {
        races_note(index_of(me), at, access);
    }
}

void scheduler_point(const char *what, const void *at, enum access access, const char *file, int line) {
    scheduler_choice(what, at, access, file, line);
    scheduler_step(at, access);
}

/*
 * Executions.
 */

static void enter(int number) {
    arrive(NULL);
    scenario_run(number);
    end_thread();
    if (flatpq_thread.owns != NULL) {
        fail("thread %d has ended, and its list of members is lost", number);
    }
    me->state = ENDED;
    run_others();
    abort();
}

static void make_fiber(int number) {
    fiber *it = &fibers[number];
    char *stack = it->stack != NULL ? it->stack : malloc(STACK);
    memset(it, 0, sizeof *it);
    it->until = it->limit = PQ_FOREVER;
    it->owns = first_thread;
    it->paces = first_pace;
    it->priority = (int)(next_random() % 1000);
    it->stack = stack;
    getcontext(&it->context);
    it->context.uc_stack.ss_sp = stack;
    it->context.uc_stack.ss_size = STACK;
    makecontext(&it->context, (void (*)(void))enter, 1, number);
}

static void begin(void) {
    static int is_known;
    if (!is_known) {
        is_known = 1;
        first_thread = flatpq_thread;
        first_pace = flatpq_pace;
#ifdef IS_SANITIZED
        __sanitizer_set_death_callback(dies);
#endif
        signal(SIGABRT, crashes);
        signal(SIGSEGV, crashes);
    }
    flatpq_thread = first_thread;
    flatpq_pace = first_pace;
    step_count = fiber_count = is_over = 0;
    now = BEGIN;
    executions++;
    for (int i = 0; i < MOST_TIMERS; i++) {
        timers[i] = PQ_FOREVER;
    }
    races_begin();
    system_begin();
    descriptors_begin();
    proved_begin();
    requests_begin();
    listeners_begin();
    members_begin();
    journal_begin();
}

/* Those that serve others end. */
static void end_service(void) {
    is_over = 1;
    for (int i = 0; i < fiber_count; i++) {
        if (fibers[i].state == ON_WORD && fibers[i].call == SERVES) {
            fibers[i].state = READY;
        }
    }
}

/* Plays a schedule: until all have ended or sleep for ever, once more after a shut, and once more for those that serve. */
void execute(void) {
    begin();
    scenario_begin();
    while (fiber_count < played.count) {
        make_fiber(fiber_count++);
    }
    for (int round = 0; round < 3; round++) {
        thread kept = flatpq_thread;
        fiber *first = choose_fiber(NULL, NULL, NOTHING);
        if (first != NULL) {
            resume(first);
        }
        flatpq_thread = kept;
        if (round == 0) {
            check_shut_at_end();
        } else if (round == 1) {
            end_service();
        }
    }
    for (int i = 0; i < fiber_count; i++) {
        if (fibers[i].state != ENDED) {
            fail("thread %d never ends", i);
        }
    }
    check_end();
}
