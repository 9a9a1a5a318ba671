/*
 * What holds at each return of a call, whenever nobody can run, and at the end of each execution.
 */
#include "explore.h"

#include <stdlib.h>

enum { MOST_NUMBERS = 64 };
static const uint64_t us = 1000;

pq_queue *queue;
enum ending ending;
/* Its member asks the proved queue, and owes nothing, as no request is posted then. */
static pq_member *observer;
static done all[MOST_DONE];
static int count_done, heard_end, has_shut;
static uint64_t events; /* begins and ends of calls */

void check_begin(pq_options options, int is_observed) {
    options.members += options.members != 0 && is_observed;
    ending = STANDS;
    count_done = heard_end = has_shut = 0;
    events = 0;
    observer = NULL;
    if (played.wraps != NULL) {
        played.wraps->opens(&options);
    } else {
        (void)!pq_open(&options, &queue);
    }
    if (queue == NULL || (is_observed && pq_join(queue, PQ_NOW, &observer) != PQ_OK)) {
        fail("no queue");
    }
    queue->numbers = numbers_at_first;
}

void check_call_begins(enum call call, uint64_t limit, uint64_t number) {
    me->calls++;
    me->begun = ++events;
    me->is_after_end = heard_end;
    me->is_after_shut = has_shut;
    me->call = call;
    me->limit = limit;
    me->number = number;
    me->late_naps = 0;
}

/* A call that may wait gives up at its deadline, and not before. */
void check_call_ends(uint32_t request, pq_code code, pq_item item, uint64_t number) {
    const int takes = me->call == TAKES || me->call == TAKES_DUE;
    const int gives_up = code == PQ_TIMED_OUT || (takes && (code == PQ_EMPTY || code == PQ_NOT_DUE)) || (me->call == PUSHES && code == PQ_FULL);
    const int is_look = (takes && code == PQ_EMPTY) || (me->call == PUSHES && code == PQ_FULL); /* it found that, and has no entry */
    if (gives_up && me->limit != PQ_NOW && now < me->limit) {
        fail("a call gives up (%s) at %llu, and its deadline is %llu", pq_code_text(code), (unsigned long long)now, (unsigned long long)me->limit);
    }
    if (me->is_after_end && code == PQ_OK && (request == PQ_POP || request == PQ_PUSH)) {
        fail("a take returned the end, and a call that began after that pushes or takes an item");
    }
    if (me->is_after_shut && code == PQ_OK && request == PQ_PUSH) {
        fail("a shut returned, and a push that began after that puts an item in");
    }
    heard_end |= code == PQ_SHUT && request == PQ_POP;
    has_shut |= code == PQ_OK && request == PQ_SHUTS;
    me->call = NO_CALL;
    me->limit = PQ_FOREVER;
    if (count_done < (is_look ? MOST_DONE / 2 : MOST_DONE) && (code == PQ_OK || number != 0 || is_look)) {
        const done it = { request, code, item, number, me->begun, ++events };
        all[count_done++] = it;
    }
}

/*
 * Whenever nobody can run.
 */

/* What the proved queue has. */
typedef struct content {
    uint64_t count, due; /* when the first item is due */
    core_answer first;
    int is_shut;
} content;

/* The member that sees it: where none is joined for that, that of a thread in no call. */
static pq_member *seer(void) {
    for (int i = 0; i < fiber_count && observer == NULL; i++) {
        if (fibers[i].state == SLEEPS && fibers[i].call == NO_CALL && used[i] != pq_own(queue)) {
            return used[i];
        }
    }
    return observer;
}

/* 0: that can't be seen. */
static int observe(content *it) {
    uint64_t peak;
    uint32_t owes;
    pq_member *by = ending == STANDS && !proved_has_posts() ? seer() : NULL;
    if (by == NULL || pq_core_try_count(&by->proved, &it->count, &peak, &owes) != PQ_OK
        || pq_core_try_pop_or_look(&by->proved, 0, 0, &it->first) != PQ_OK) {
        return 0;
    }
    it->is_shut = queue->is_shut != 0;
    it->due = it->first.kind == KIND_FIRST ? flatpq_due_time(queue, it->first.item.priority) : PQ_FOREVER;
    return 1;
}

int is_journal_full(void) {
    content it;
    return observe(&it) && it.first.kind == KIND_JOURNAL_FULL;
}

static void check_members(void) {
    if (ending == FREED) {
        return;
    }
    if (queue->wanted == NULL) {
        return;
    }
    if (queue->is_closed) {
        fail("the queue is closed, and a thread waits for a member");
    }
    for (own *it = queue->owns; it != NULL; it = it->next_of_queue) {
        if (it->busy || !refuses_barriers) {
            fail("a member is idle, or its thread sleeps, and a thread waits for one");
        }
    }
}

/* A thread that sleeps in a call by which it could go on. */
static void check_sleeper(int which, const content *it) {
    const fiber *thread = &fibers[which];
    const int has_item = it->first.kind == KIND_FIRST, is_full = it->first.kind == KIND_JOURNAL_FULL, ends = it->is_shut && it->count == 0;
    const char *shut = it->is_shut ? ", and the queue is shut" : "";
    const unsigned long long count = it->count, first = it->first.item.priority;
    if (thread->call == TAKES && (it->count > 0 || is_full || ends)) {
        fail("thread %d sleeps in a take, and there are %llu items%s", which, count, shut);
    }
    if ((thread->call == TAKES_DUE || thread->call == LISTENS_FOR_DUE) && ends) {
        fail("thread %d waits for what is due, and the queue is shut and empty", which);
    }
    if (thread->call == PUSHES && queue->most_items != 0
        && (it->count < queue->most_items || it->is_shut || is_full)) {
        fail("thread %d waits for room, and there are %llu items of %llu%s", which, count, (unsigned long long)queue->most_items, shut);
    }
    if (thread->call == LISTENS_FOR && ((has_item && it->first.item.priority <= thread->number) || ends)) {
        fail("thread %d listens, is not notified, and there are %llu items, the first of priority %llu%s", which, count, first, shut);
    }
}

/* Of those that wait for what is due in this way one, at least, is awake in time. */
static void check_watched(const content *it, enum call call) {
    uint64_t watched = PQ_FOREVER;
    int has_any = 0;
    for (int i = 0; i < fiber_count; i++) {
        if (fibers[i].call == call && fibers[i].state == ON_WORD) {
            has_any = 1;
            watched = fibers[i].until < watched ? fibers[i].until : watched;
        }
    }
    if (has_any && it->first.kind == KIND_FIRST && watched > it->due) {
        fail("the first item is due at %llu, and those that wait for what is due sleep until %llu", (unsigned long long)it->due,
             (unsigned long long)watched);
    }
}

static void check_alarm(int which, const content *it) {
    const uint64_t soon = 200 * us; /* an alarm that found the lock held is rung then */
    const uint64_t latest = (it->due > now ? it->due : now) + soon;
    if ((it->first.kind == KIND_FIRST && fibers[which].until > latest) || (it->is_shut && it->count == 0)) {
        fail("the alarm of thread %d is set for %llu, and the first item is due at %llu", which, (unsigned long long)fibers[which].until,
             (unsigned long long)it->due);
    }
}

/* A thread that sleeps under its number while a shut waits was not woken for that. */
static void check_shut_waits(void) {
    if (ending != STANDS || queue->is_shut != SHUT_WAITS || waits_for_archive) {
        return;
    }
    for (int i = 0; i < fiber_count; i++) {
        const waiter *at = fibers[i].at;
        if (fibers[i].state == ON_WORD && at >= queue->waiters && at < queue->waiters + MOST_NUMBERS) {
            fail("a shut waits, and thread %d sleeps", i);
        }
    }
}

static void check_awaiting(int which) {
    const fiber *it = &fibers[which];
    if (it->call == AWAITS && it->state == ON_WORD && (ending == FREED || queue->is_closed || queue->archived >= it->number)) {
        fail("thread %d waits for an entry that is archived, or at a queue that has ended", which);
    }
}

void check_settled(void) {
    content it;
    for (int i = 0; i < fiber_count; i++) {
        if (fibers[i].state == NAPS) {
            return;
        }
        check_awaiting(i);
    }
    check_shut_waits();
    check_members();
    if (played.wraps != NULL) {
        played.wraps->settles();
    }
    if (!observe(&it)) {
        return;
    }
    check_watched(&it, TAKES_DUE);
    check_watched(&it, LISTENS_FOR_DUE);
    for (int i = 0; i < fiber_count; i++) {
        if (fibers[i].state == ON_WORD) {
            check_sleeper(i, &it);
        } else if (fibers[i].state == SLEEPS && fibers[i].call == HAS_ALARM) {
            check_alarm(i, &it);
        }
    }
}

/*
 * The end.
 */

/* Outside of all fibers is a thread that never ends: what it has of the queue after a shut or a close ends here. */
static void leave_outside(void) {
    pq_leave(queue);
    free(flatpq_thread.owns);
    flatpq_thread.owns = NULL;
}

/* Those that still wait are to end. */
void check_shut_at_end(void) {
    int waits = 0;
    for (int i = 0; i < fiber_count; i++) {
        waits |= fibers[i].state != ENDED;
    }
    if (waits && ending == STANDS && (played.wraps != NULL ? played.wraps->shuts() : pq_shut(queue)) != PQ_OK) {
        fail("the queue is not shut");
    }
    leave_outside();
}

static void free_queue(void) {
    if (played.wraps != NULL) {
        played.wraps->frees();
    } else {
        pq_free(queue, NULL, NULL);
    }
    descriptors_end();
}

static uint32_t waiting_without_a_number(void) {
    uint32_t count = 0;
    for (int i = 0; i < KINDS; i++) {
        count += queue->unnumbered[i];
    }
    return count;
}

void check_end(void) {
    const int is_full = is_journal_full();
    pq_journal *journal;
    pq_code code;
    if (ending == FREED) {
        return;
    }
    pq_give_back(observer);
    if (ending == CLOSED) {
        if (has_shut && queue->is_shut != IS_SHUT && !waits_for_archive) {
            fail("a shut returned, and the close made none");
        }
        free_queue();
        return;
    }
    /* A thread that could not get a member leaves its entry to others. */
    if ((queue->numbers & ~queue->gone) != numbers_at_first || queue->waiting != 0 || queue->staying != 0 || queue->wanted != NULL
        || (queue->holders | queue->stranded | queue->unheld | waiting_without_a_number()) != 0) {
        fail("threads have ended, and something of them is left in the queue: numbers %llx, gone %llx, waiting %u, staying %u",
             (unsigned long long)queue->numbers, (unsigned long long)queue->gone, queue->waiting, queue->staying);
    }
    code = pq_close(queue, &journal);
    if (code != PQ_OK) {
        fail("the queue is not closed: %s", pq_code_text(code));
    }
    leave_outside();
    check_journal(journal, all, count_done, heard_end);
    if (queue->archived > journal_kept()) {
        fail("%llu entries are archived, and there are %llu", (unsigned long long)queue->archived, (unsigned long long)journal_kept());
    }
    if (queue->is_shut == IS_SHUT && !is_full && journal_shut() == 0) {
        fail("the queue is shut, and no entry is of that");
    }
    pq_journal_free(journal);
    free_queue();
}
