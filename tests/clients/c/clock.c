/* Waits, spins and naps to the nanosecond: over a clock and sleeps of the test's own, each of which takes exactly as long as it was asked for. No
   wait ends before its deadline or goes on after it, with a signal or without; nor does a call that finds the lock held, and it does nothing. A nap is
   as long as it should be; and calls spin at first, where time passes with each look at the clock, but on one processor. The linker puts the functions __wrap_.. in place of the system's. Another thread has the lock where one is to have it. */
#include "../wrapped.h"
#include "system_calls.h"

#include <errno.h>
#include <sched.h>

void *__real_realloc(void *old, size_t size);
void *__wrap_realloc(void *old, size_t size);
int __wrap_clock_gettime(clockid_t clock, struct timespec *time);
int __wrap_sched_getaffinity(pid_t process, size_t size, cpu_set_t *set);

enum { MOST_NAPS = 1000 };
static const uint64_t SECOND = 1000000000, US = 1000;
static uint64_t now = 5000000000000;
/* How far the clock goes on with each look of this thread at it; the naps, and how often it slept. */
static __thread int is_here;
static uint64_t ticks, naps[MOST_NAPS];
static int napped, slept;
/* So many sleeps end by a signal. */
static int signals;
/* What happens when, in a sleep or at its end, and after how many naps the lock is free. */
static uint64_t comes_at;
static pq_member *pushing;
static int free_after, holds_in_sleep;
static holder own;
static pq_queue *queue;

void *__wrap_realloc(void *old, size_t size) {
    wrapped_asks();
    return __real_realloc(old, size);
}

static struct timespec time_of(uint64_t nanoseconds) {
    struct timespec time = { 0, 0 };
    time.tv_sec = (time_t)(nanoseconds / SECOND);
    time.tv_nsec = (long)(nanoseconds % SECOND);
    return time;
}

int __wrap_clock_gettime(clockid_t clock, struct timespec *time) {
    CHECK(clock == CLOCK_MONOTONIC);
    if (is_here) {
        __atomic_fetch_add(&now, ticks, __ATOMIC_RELAXED);
    }
    *time = time_of(__atomic_load_n(&now, __ATOMIC_RELAXED));
    return 0;
}

/* How many processors there are; 0: that isn't known. */
static unsigned processors;
static int barriers;
/* The system has no futex_waitv. */
static int is_old;

int __wrap_sched_getaffinity(pid_t process, size_t size, cpu_set_t *set) {
    (void)process, (void)size;
    for (unsigned i = 0; i < processors; i++) {
        CPU_SET(i, set);
    }
    return processors > 0 ? 0 : -1;
}

static void nap(uint64_t longest) {
    CHECK(napped < MOST_NAPS);
    naps[napped++] = longest;
    now += longest;
    if (free_after == napped) {
        let_go(&own);
    }
}

static void sleep_until(uint64_t time) {
    slept++;
    if (holds_in_sleep) {
        holds_in_sleep = 0;
        hold(&own, queue, HOLDS_AND_STOPS);
    } else if (pushing != NULL && comes_at <= time) {
        pq_member *member = pushing;
        now = comes_at > now ? comes_at : now;
        pushing = NULL;
        CHECK(pq_push(member, item_of(7, 8), PQ_NOW, NULL) == PQ_OK);
    } else {
        now = time > now ? time : now;
    }
}

static uint64_t nanoseconds_of(long word) {
    const struct timespec *time = (const struct timespec *)word;
    return (uint64_t)time->tv_sec * SECOND + (uint64_t)time->tv_nsec;
}

long __wrap_syscall(long number, ...) {
    long words[6], operation;
    va_list rest;
    va_start(rest, number);
    read_words(rest, words);
    va_end(rest);
    operation = words[1] & FUTEX_CMD_MASK;
    barriers += number == SYS_membarrier;
    if (number == SYS_membarrier && processors == 1) {
        return -1;
    }
    if (is_here && number == SYS_futex_waitv) {
        errno = is_old ? ENOSYS : ETIMEDOUT;
        if (!is_old) {
            nap(nanoseconds_of(words[3]) - now);
        }
        return -1;
    }
    if (is_here && number == SYS_futex && operation == FUTEX_WAIT_BITSET && signals > 0) {
        signals--;
        slept++;
        errno = EINTR;
        return -1;
    }
    if (is_here && number == SYS_futex && operation != FUTEX_WAKE) {
        operation == FUTEX_WAIT ? nap(nanoseconds_of(words[3])) : sleep_until(nanoseconds_of(words[3]));
        return 0;
    }
    return __real_syscall(number, words[0], words[1], words[2], words[3], words[4], words[5]);
}

static pq_member *member, *other;

/* A queue whose lock is held until so many naps are over; 0: until the test lets it go. */
static void begin_held(int until_naps) {
    queue = opened(64);
    member = joined(queue);
    hold(&own, queue, HOLDS_AND_STOPS);
    free_after = until_naps;
    napped = slept = 0;
}

static void end_held(void) {
    if (free_after == 0 || napped < free_after) {
        let_go(&own);
    }
    free_after = 0;
    pq_give_back(member);
    close_and_free(queue);
}

static pq_item item;

static void a_wait_ends_at_its_deadline(void) {
    const uint64_t longest[] = { 1, 999, 1000, 50000, 50001, 30000000, SECOND - 1, SECOND, 2 * SECOND + 3000, 900 * SECOND };
    for (size_t i = 0; i < sizeof longest / sizeof *longest; i++) {
        uint64_t until = now + longest[i], number = 9;
        slept = napped = 0;
        item = item_of(9, 9);
        CHECK(pq_take(member, &item, until, &number) == PQ_EMPTY && now == until && slept == 1 && napped == 0);
        CHECK(is_item(item, 9, 9) && number == 9);
        until += longest[i];
        CHECK(pq_take_due(member, &item, until, NULL) == PQ_EMPTY && now == until && slept == 2);
        CHECK(pq_take(member, &item, now, NULL) == PQ_EMPTY && pq_take(member, &item, PQ_NOW, NULL) == PQ_EMPTY && slept == 2);
    }
    /* One that is further than the system may take. */
    slept = 0;
    CHECK(pq_take(member, &item, 5000000 * SECOND, NULL) == PQ_EMPTY && now == 5000000 * SECOND && slept > 1);
}

/* Also at the deadline itself, and after hours. */
static void what_comes_in_a_sleep_is_taken_at_once(void) {
    const uint64_t comes[] = { 0, 25000000, 29999999, 30000000, 5000 * SECOND };
    for (size_t i = 0; i < 2 * sizeof comes / sizeof *comes; i++) {
        uint64_t when = now + comes[i / 2];
        comes_at = when;
        pushing = other;
        slept = 0;
        CHECK((i % 2 == 0 ? pq_take : pq_take_due)(member, &item, i < 8 ? now + 30000000 : PQ_FOREVER, NULL) == PQ_OK);
        CHECK(is_item(item, 7, 8) && now == when && slept == 1);
    }
}

static void signals_do_not_end_a_wait(void) {
    for (int i = 0; i < 2; i++) {
        comes_at = now + 30000000;
        pushing = other;
        slept = 0;
        signals = 5;
        CHECK((i == 0 ? pq_take : pq_take_due)(member, &item, PQ_FOREVER, NULL) == PQ_OK && now == comes_at && slept == 6);
    }
}

/* Items of one time come out in the order of their pushes, at that time, neither before nor after; what is late comes out at once. */
static void what_is_due_comes_at_its_time(void) {
    const uint64_t due = now + 3 * SECOND;
    slept = 0;
    CHECK(pq_push(other, item_of(due, 1), PQ_NOW, NULL) == PQ_OK && pq_push(other, item_of(due, 2), PQ_NOW, NULL) == PQ_OK);
    CHECK(pq_take_due(member, &item, due - 1, NULL) == PQ_NOT_DUE && is_item(item, due, 1) && now == due - 1 && slept == 1);
    CHECK(pq_take_due(member, &item, PQ_FOREVER, NULL) == PQ_OK && is_item(item, due, 1) && now == due && slept == 2);
    CHECK(pq_take_due(member, &item, PQ_NOW, NULL) == PQ_OK && is_item(item, due, 2) && slept == 2);
    CHECK(pq_push(other, item_of(now - 1, 3), PQ_NOW, NULL) == PQ_OK);
    CHECK(pq_take_due(member, &item, PQ_FOREVER, NULL) == PQ_OK && is_item(item, due - 1, 3) && now == due && slept == 2);
}

/* By these times of a queue's options the item of this priority is due at this time; PQ_FOREVER: never. */
static void is_due_at(uint64_t zero, uint64_t unit, uint64_t priority, uint64_t time) {
    const uint64_t begun = now;
    pq_options options = { 2, PQ_FORGETS, 0, 0, 0, 0, 0 };
    pq_member *by;
    pq_queue *of_times;
    options.time_zero = zero;
    options.time_unit = unit;
    CHECK(pq_open(&options, &of_times) == PQ_OK);
    by = pq_own(of_times);
    CHECK(pq_push(by, item_of(priority, 1), PQ_NOW, NULL) == PQ_OK);
    if (time > begun) {
        uint64_t number = 9;
        CHECK(pq_take_due(by, &item, PQ_NOW, &number) == PQ_NOT_DUE && is_item(item, priority, 1) && number == 9);
        CHECK(pq_take_due(by, &item, time == PQ_FOREVER ? now + SECOND : time - 1, &number) == PQ_NOT_DUE && number == 9);
    }
    if (time != PQ_FOREVER) {
        CHECK(pq_take_due(by, &item, PQ_FOREVER, NULL) == PQ_OK && is_item(item, priority, 1) && now == (time > begun ? time : begun));
    }
    pq_leave(of_times);
    close_and_free(of_times);
}

static void times_are_those_of_the_options(void) {
    const uint64_t ms = 1000 * US, units = now / ms + 1, upper = (uint64_t)1 << 32, half = (uint64_t)1 << 63;
    is_due_at(0, 0, now + 30, now + 30);
    is_due_at(upper, 1, upper + now + 60, now + 60);
    is_due_at(0, ms, units, units * ms);
    is_due_at(1000, 7 * ms, 1000 + units / 7 + 20, (units / 7 + 20) * 7 * ms);
    is_due_at(half, 1, half + now + 150, now + 150);
    /* Priorities of the past, and before the zero. */
    is_due_at(0, 1, 0, now);
    is_due_at(upper, ms, upper - 1, now);
    is_due_at(upper, ms, 0, now);
    is_due_at(UINT64_MAX, UINT64_MAX, UINT64_MAX, now);
    is_due_at(UINT64_MAX - 5, 1, UINT64_MAX, now);
    is_due_at(UINT64_MAX - 5, UINT64_MAX, UINT64_MAX - 5, now);
    /* Times that never come. */
    is_due_at(0, 1, UINT64_MAX, PQ_FOREVER);
    is_due_at(0, UINT64_MAX, 1, PQ_FOREVER);
    is_due_at(0, UINT64_MAX, UINT64_MAX, PQ_FOREVER);
    is_due_at(5, UINT64_MAX / 2, 8, PQ_FOREVER);
    is_due_at(UINT64_MAX - 5, half, UINT64_MAX, PQ_FOREVER);
    is_due_at(0, 3, UINT64_MAX / 3 + 1, PQ_FOREVER);
}

/* What is there is taken without a look at the clock, and what is due by one. */
static void what_is_there_is_taken_at_once(void) {
    const uint64_t begun = now;
    ticks = 1;
    CHECK(pq_push(other, item_of(0, 1), PQ_FOREVER, NULL) == PQ_OK && pq_push(other, item_of(0, 2), PQ_FOREVER, NULL) == PQ_OK);
    CHECK(pq_take(member, &item, PQ_FOREVER, NULL) == PQ_OK && now == begun);
    CHECK(pq_take_due(member, &item, PQ_FOREVER, NULL) == PQ_OK && now == begun + 1);
    ticks = 0;
}

enum { CALLS_WITH_DEADLINES = 10 };

/* A call that has a deadline, and does nothing. */
static pq_code ask(int which, pq_member *by, uint64_t until) {
    pq_item one = item_of(9, 9), many[2] = { { 9, 9 }, { 9, 9 } };
    uint64_t number = 9, size = 9;
    size_t done = 0;
    pq_journal *journal = NULL;
    pq_code code = PQ_OK;
    switch (which) {
    case 0: code = pq_push(by, one, until, &number); break;
    case 1: code = pq_pop(by, &one, until, &number); break;
    case 2: code = pq_peek(by, &one, until, &number); break;
    case 3: code = pq_pop_due(by, 9, &one, until, &number); break;
    case 4: code = pq_take(by, &one, until, &number); break;
    case 5: code = pq_take_due(by, &one, until, &number); break;
    case 6: code = pq_push_many(by, many, 2, until, &done, &number); break;
    case 7: code = pq_pop_due_many(by, 9, many, 2, until, &done, &number); break;
    case 8: code = pq_size(by, until, &size, NULL); break;
    default: code = pq_archive(by, 0, until, &journal);
    }
    CHECK(is_item(one, 9, 9) && is_item(many[0], 9, 9) && is_item(many[1], 9, 9));
    CHECK(number == 9 && size == 9 && done == 0 && journal == NULL);
    return code;
}

static void times_out_at_its_deadline(int which, pq_member *by) {
    const uint64_t past[] = { PQ_NOW, 1, now - 1, now }, longest[] = { 1, 100 * US - 1, 100 * US, 100 * US + 1, 2000 * US };
    napped = slept = 0;
    for (size_t i = 0; i < sizeof past / sizeof *past; i++) {
        CHECK(ask(which, by, past[i]) == PQ_TIMED_OUT && napped == 0 && slept == 0);
    }
    for (size_t i = 0; i < sizeof longest / sizeof *longest; i++) {
        uint64_t until = (now += SECOND) + longest[i], most = 0;
        napped = 0;
        CHECK(ask(which, by, until) == PQ_TIMED_OUT && now >= until && now < until + 30 * ticks && slept == 0);
        for (int k = 0; k < napped; k++) {
            most = naps[k] > most ? naps[k] : most;
        }
        CHECK(most <= 100 * US && (longest[i] < 2000 * US || (most == 100 * US && napped >= 19 && napped <= 21)));
    }
}

static void notify(void *context) {
    ++*(int *)context;
}

/* Each call that finds the lock held until its deadline naps until exactly then, and nothing of it comes later. The clock stands still, so it doesn't
   spin longer. One that listens is notified at once. */
static void a_call_times_out_at_its_deadline(void) {
    pq_journal *journal;
    int notified = 0;
    begin_held(0);
    ticks = 100;
    for (int which = 0; which < CALLS_WITH_DEADLINES; which++) {
        times_out_at_its_deadline(which, member);
        times_out_at_its_deadline(which, pq_own(queue));
    }
    CHECK(pq_take_or_listen(member, 9, &item, NULL, notify, &notified) == PQ_EMPTY && notified == 1);
    ticks = 0;
    let_go(&own);
    pq_give_back(member);
    journal = closed(queue);
    CHECK(own.pushed == 1 && pq_count(journal, NULL) == 1);
    pq_journal_free(journal);
}

/* While there are no more members than processors, but for one, a call that posts, of a thread that works between its calls, naps 1.25 microseconds for each
   member in use, and twice as long each time. Else it is 8 for each, and 50, and never less than 100. The call is done once the lock is free. */
static void a_nap_is_as_long_as_there_are_members(void) {
    for (uint64_t members = 2; members <= 64; members += members < 8 ? 1 : 14) {
        const int is_crowd = processors > 0 && members > processors + 1;
        const uint64_t first = !is_crowd ? members * 1250 : members <= 6 ? 100 * US : (50 + members * 8) * US;
        pq_member *more[64];
        begin_held(3);
        for (uint64_t i = 2; i < members; i++) {
            more[i] = joined(queue);
        }
        ticks = SECOND; /* a spin is over with its first look at the clock */
        CHECK(pq_pop(member, &item, PQ_FOREVER, NULL) == PQ_OK && napped == 3);
        ticks = 0;
        for (int i = 0; i < 3; i++) {
            CHECK(naps[i] == (i == 0 || is_crowd ? first : naps[i - 1] >= 100 * US ? naps[i - 1] : 2 * naps[i - 1]));
        }
        for (uint64_t i = 2; i < members; i++) {
            pq_give_back(more[i]);
        }
        end_held();
    }
}

/* A thread that waits for the first time naps at once. */
static void *nap_at_once(void *unused) {
    is_here = 1;
    ticks = 100;
    CHECK(pq_pop(member, &item, now + 9 * US, NULL) == PQ_TIMED_OUT && napped == 1);
    return unused;
}

/* Nor does the system have barriers there, for which the library asks once. */
static void calls_do_not_spin_on_one_processor(void) {
    processors = 1;
    begin_held(0);
    ended(started(nap_at_once, NULL));
    ticks = 0;
    end_held();
    queue = opened(1);
    CHECK(pq_push(pq_own(queue), item_of(1, 2), PQ_NOW, NULL) == PQ_OK);
    pq_leave(queue);
    pq_give_back(joined(queue));
    close_and_free(queue);
    CHECK(barriers == 1);
}

/* How long a call spins before its first nap, and whether it spins the next times. */
static void spin(void) {
    const uint64_t begun = now;
    ticks = 100;
    napped = 0;
    CHECK(pq_pop(member, &item, begun + 1000 * US, NULL) == PQ_TIMED_OUT);
    CHECK(now - begun >= 1000 * US && naps[0] == 100 * US);
    /* It is 10 microseconds: a deadline before that ends in the spin. After one that failed, one wait has none; then three. */
    for (int wait = 0; wait < 6; wait++) {
        now += SECOND;
        napped = 0;
        CHECK(pq_pop(member, &item, now + 9 * US, NULL) == PQ_TIMED_OUT && napped == (wait != 1 && wait != 5));
    }
    ticks = 0;
}

/* A thread that is woken for what is due, and finds the lock held, spins for 40 microseconds each time, and then its naps are short. */
static void wait_for_what_is_due(void) {
    const uint64_t longest[] = { 39 * US, 43 * US, 1000 * US };
    for (int wait = 0; wait < 9; wait++) {
        now += SECOND;
        queue = opened(4);
        member = joined(queue);
        CHECK(pq_push(member, item_of(now + SECOND, 1), PQ_NOW, NULL) == PQ_OK);
        holds_in_sleep = 1;
        napped = slept = 0;
        ticks = 100;
        CHECK(pq_take_due(member, &item, now + longest[wait % 3], NULL) == PQ_TIMED_OUT && slept == 1);
        CHECK(wait % 3 == 2 ? napped > 2 && naps[0] == 2 * 1250 && naps[1] == 2 * naps[0] : napped == wait % 3);
        ticks = 0;
        let_go(&own);
        pq_give_back(member);
        close_and_free(queue);
    }
}

/* In a thread of its own, which has not waited before. What is due does not count for other calls, nor these for it. */
static void *spin_by_turns(void *unused) {
    is_here = 1;
    wait_for_what_is_due();
    begin_held(0);
    spin();
    end_held();
    wait_for_what_is_due();
    return unused;
}

/* A thread that makes one call after another naps at once. */
static void *call_all_the_time(void *unused) {
    pq_queue *free_queue = opened(1);
    (void)unused;
    is_here = 1;
    ticks = 0;
    for (int i = 0; i < 100; i++) {
        CHECK(pq_push(pq_own(free_queue), item_of(1, 2), PQ_FOREVER, NULL) == PQ_OK);
        now += 10;
    }
    ticks = 100;
    napped = 0;
    CHECK(pq_pop(member, &item, now + 1000 * US, NULL) == PQ_TIMED_OUT && napped > 0);
    for (int i = 0; i < 1000; i++) {
        CHECK(pq_push(pq_own(free_queue), item_of(1, 2), PQ_FOREVER, NULL) == PQ_OK);
    }
    now += 10;
    napped = 0;
    CHECK(pq_pop(member, &item, now + 9 * US, NULL) == PQ_TIMED_OUT && napped == 1);
    ticks = 0;
    close_and_free(free_queue);
    return NULL;
}

static void calls_spin_at_first(void) {
    ended(started(spin_by_turns, NULL));
    begin_held(0);
    ended(started(call_all_the_time, NULL));
    end_held();
}

/* Also by a call that posts. */
static void a_thread_that_calls_all_the_time_naps_long(void) {
    pq_queue *free_queue = opened(1);
    for (int wait = 0; wait < 2; wait++) {
        begin_held(2);
        for (int i = 0; i < 1000; i++) {
            CHECK(pq_push(pq_own(free_queue), item_of(1, 2), PQ_FOREVER, NULL) == PQ_OK);
        }
        CHECK(pq_pop(member, &item, PQ_FOREVER, NULL) == PQ_OK && napped >= 2);
        CHECK(wait == 0 || (napped == 2 && naps[0] == 100 * US && naps[1] == 100 * US));
        end_held();
    }
    close_and_free(free_queue);
}

/* FUTEX_WAIT wakes a thread 50 microseconds late, so a nap by it is shorter, and none at all is one of a nanosecond. The library asks once for the other
   kind. */
static void naps_are_as_long_where_the_system_is_old(void) {
    processors = 2;
    is_here = is_old = 1;
    for (uint64_t i = 0; i < 2; i++) {
        begin_held(3);
        ticks = SECOND;
        CHECK(pq_pop(member, &item, PQ_FOREVER, NULL) == PQ_OK && napped == 3 && naps[0] == 1 && naps[2] == 1);
        ticks = 0;
        end_held();
    }
}

static void naps_are_short_where_processors_are_not_counted(void) {
    is_here = 1;
    a_nap_is_as_long_as_there_are_members();
}

int main(void) {
    in_child(calls_do_not_spin_on_one_processor);
    in_child(naps_are_as_long_where_the_system_is_old);
    in_child(naps_are_short_where_processors_are_not_counted);
    processors = 4;
    is_here = 1;
    queue = opened(2);
    member = joined(queue);
    other = joined(queue);
    a_wait_ends_at_its_deadline();
    what_comes_in_a_sleep_is_taken_at_once();
    signals_do_not_end_a_wait();
    what_is_due_comes_at_its_time();
    times_are_those_of_the_options();
    what_is_there_is_taken_at_once();
    pq_give_back(member);
    pq_give_back(other);
    close_and_free(queue);
    a_call_times_out_at_its_deadline();
    a_nap_is_as_long_as_there_are_members();
    a_thread_that_calls_all_the_time_naps_long();
    calls_spin_at_first();
    return 0;
}
