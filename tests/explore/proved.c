/*
 * Around each proved call: which member it is of, and whether another thread holds the queue's lock. The calls run over the real core, each as
 * one step, as they are proved. What happens inside a step is not explored, but for this. A thread that holds the lock answers what was posted, then
 * counts the wakes for that, and then frees the lock. Where a scenario holds the lock, a thread may find its answer before those wakes are counted,
 * and claims none. Where answers are early too, one that stays does so at no cost.
 */
#include "explore.h"

#include <string.h>

enum { MOST_HANDLES = 16 };

const char proved_core = 0;
int is_held;
static const uint64_t stall = 3000000; /* as where a thread has no processor */
static uint64_t stalls_until;
/* The thread that holds the lock has answered what was posted, and has not counted the wakes for that. */
static int has_answered;
/* The members of requests that are posted, and not carried out yet. */
static const void *posts[MOST_HANDLES];
static int post_count;
/* By which threads each member was used, and in which of their calls. */
static struct {
    const void *handle;
    uint64_t call[MOST_FIBERS];
    int last;
} uses[MOST_HANDLES];

void proved_begin(void) {
    is_held = has_answered = post_count = 0;
    stalls_until = 0;
    memset(uses, 0, sizeof uses);
}

/* No thread uses a member twice in a call while another uses it between, but in one that may give its member up and get it back. */
static void check_use(const void *handle) {
    int mine = index_of(me), i = 0;
    while (i + 1 < MOST_HANDLES && uses[i].handle != NULL && uses[i].handle != handle) {
        i++;
    }
    if (me->call == NO_CALL || me->call == TAKES || me->call == TAKES_DUE || i + 1 == MOST_HANDLES) {
        return;
    }
    if (uses[i].handle == handle && uses[i].last != mine && uses[i].call[mine] == me->calls) {
        fail("threads %d and %d use a member at once", mine, uses[i].last);
    }
    uses[i].handle = handle;
    uses[i].last = mine;
    uses[i].call[mine] = me->calls;
}

/* No thread carries out a request by a member that another took over from it. A thread that closes the queue, under the lock of members, may join
   one that has the same memory. */
static void check_own(const void *handle) {
    const own *last = flatpq_thread.last;
    const int closes = *(const int *)&flatpq_members == 1 + index_of(me);
    if (!closes && last != NULL && last->shared != NULL && last->taken == TAKEN && (const void *)&last->member->proved == handle) {
        fail("thread %d uses a member that was taken over", index_of(me));
    }
}

int proved_begins(const void *handle, int may_hold) {
    system_drain();
    if (me == NULL) {
        return 1;
    }
    check_use(handle);
    if (!may_hold) {
        return 1;
    }
    check_own(handle);
    scheduler_step(&proved_core, is_held ? READS : WRITES);
    if (is_held || me->posts_until > 0) {
        me->found_held = 1;
        return 0;
    }
    if (played.holds) {
        is_held = 1;
        scheduler_point("(the lock is held)", &proved_core, WRITES, "core", 0);
        if (choose_costly()) {
            stalls_until = now + stall;
            block(NAPS, NULL, stalls_until);
        }
    }
    return 1;
}

/* While the thread that holds the lock has no processor a nap that ends before is followed by others, of which nobody sees anything: they are one. */
uint64_t proved_naps_until(uint64_t until) {
    const uint64_t length = until - now, last = stalls_until < me->limit ? stalls_until : me->limit;
    return length == 0 || last <= until ? until : until + (last - until) / length * length;
}

int proved_has_posts(void) {
    return post_count > 0;
}

/* Whether the answer of this member is there, which a thread may find while another holds the lock. */
static int is_answered(const void *handle) {
    int is_there = is_held && has_answered;
    for (int i = 0; i < post_count; i++) {
        is_there &= posts[i] != handle;
    }
    return is_there;
}

/* Those that stay and have their answers go on before the thread that holds the lock does, until they have claimed wakes. */
static void let_answered_go_on(void) {
    int count = 0;
    for (int i = 0; i < fiber_count; i++) {
        if (fibers[i].stays_by != NULL && is_answered(fibers[i].stays_by)) {
            fibers[i].until = now;
            count++;
        }
    }
    if (count > 0) {
        block(NAPS, NULL, now + 1);
    }
}

/* The step has carried out what was posted before it, or has not. */
static pq_code ends(pq_code code, int carries_out) {
    const int had = post_count;
    post_count = carries_out ? 0 : had;
    if (is_held && me != NULL) {
        has_answered = carries_out && had > 0;
        if (played.answers_early) {
            let_answered_go_on();
        }
        scheduler_point("(the lock is free)", &proved_core, WRITES, "core", 0);
        is_held = has_answered = 0;
    }
    return code;
}

/* A step that has an answer has carried out what was posted before it, and so has one that found the end. */
pq_code proved_ends(pq_code code) {
    return ends(code, code == PQ_OK || code == ANSWERED || code == PQ_SHUT || code == ENTERED || code == WATCHES);
}

pq_code proved_ends_alone(pq_code code) {
    return ends(code, 0);
}

/* The thread has posted its request, and others go on until the time that its word says. */
static void stay(const void *handle) {
    const uint64_t until = me->posts_until;
    me->posts_until = 0;
    if (is_to_come(until)) {
        me->stays_by = handle;
        block(NAPS, NULL, until);
        me->stays_by = NULL;
    }
}

pq_code proved_post(core *member, uint32_t request, uint64_t priority, uint64_t value) {
    pq_code code = pq_core_post(member, request, priority, value);
    if (code == PQ_OK && post_count < MOST_HANDLES) {
        posts[post_count++] = member;
    }
    if (code == PQ_OK && me != NULL && me->posts_until > 0) {
        stay(member);
    }
    return code;
}

static void forget_post(const void *handle) {
    for (int i = 0; i < post_count; i++) {
        if (posts[i] == handle) {
            posts[i--] = posts[--post_count];
        }
    }
}

pq_code proved_answer(core *member, core_answer *answer) {
    pq_code code;
    if (!proved_begins(member, 1)) {
        return is_answered(member) ? pq_core_step_answer(member, answer) : LOCK_HELD;
    }
    code = pq_core_step_answer(member, answer);
    if (code == PQ_OK) {
        forget_post(member);
    }
    return ends(code, code == NOT_ANSWERED);
}
