/*
 * Threads that wait for an item, or for room.
 *
 * A thread that waits gets a number of the queue, makes a step, and sleeps until its word changes. The step takes its entry out of the list of those
 * that wait, takes an item or pushes one, and else enters again, all under the queue's lock. A thread that sleeps by its own member gives that up
 * meanwhile.
 *
 * Threads that wait for the same are of two kinds, by joined members and by their own. Each kind has a number beside those of all. So where one
 * finds none, and sleeps until one is given back, another of its kind is in the list. Of each kind as many are woken as numbers are given back.
 *
 * Of those that take what is due one watches: it sleeps until the first item is due. Where its entry leaves, another is woken, which then watches.
 */
#include "inside.h"

/*
 * Numbers.
 */

static uint32_t kind_of(const wait *it) {
    return 2 * it->wants + (uint32_t)it->is_own;
}

/* Listeners may have all numbers but those of the kinds, and threads leave them the first 32. */
static uint64_t may_have(const wait *it) {
    const uint64_t of_all = UINT64_MAX >> KINDS;
    return it->wants <= DUE ? (of_all - UINT32_MAX) | (of_all + 1) << kind_of(it) : of_all;
}

int flatpq_take_number(wait *it) {
    uint64_t used = __atomic_load_n(&it->queue->numbers, SEQ), free;
    do {
        free = ~used & may_have(it);
        it->number = free & -free;
    } while (free != 0 && !__atomic_compare_exchange_n(&it->queue->numbers, &used, used | it->number, 0, SEQ, SEQ));
    if (it->number != 0 && !it->is_own && it->wants <= DUE) {
        flatpq_hold(it->queue, it->listening, it->number);
        flatpq_hand_on(it->queue);
    }
    return it->number != 0;
}

void flatpq_call_unnumbered(pq_queue *queue, int most) {
    for (int kind = 0; kind < KINDS; kind++) {
        if (__atomic_load_n(&queue->unnumbered[kind], SEQ) > 0) {
            __atomic_fetch_add(&queue->given[kind], 1, SEQ);
            flatpq_wake(&queue->given[kind], most);
        }
    }
}

void flatpq_give_numbers(pq_queue *queue, uint64_t numbers) {
    __atomic_fetch_and(&queue->numbers, ~numbers, SEQ);
    flatpq_call_unnumbered(queue, __builtin_popcountll(numbers));
}

/*
 * Waiting without a member.
 */

/* A call that is refused still has the number under which the thread listens. Without that the queue may be gone. */
pq_code flatpq_begin_wait(wait *it, pq_member *member) {
    const pq_member *shared = member;
    pq_code code = flatpq_begin(&member, it->until, &it->mine);
    own *mine = code == PQ_OK ? it->mine : code != PQ_FORKED ? flatpq_own_of(shared) : NULL;
    it->is_own = mine != NULL;
    if (code == PQ_OK) {
        it->queue = member->queue;
        it->member = member;
        it->listens = mine != NULL ? &mine->listens : &member->listens;
    } else if (mine != NULL && mine->listens != 0) {
        it->queue = mine->queue;
        it->listens = &mine->listens;
    } else {
        return code;
    }
    it->number = *it->listens;
    it->is_in = it->number != 0;
    return code;
}

void flatpq_wait_no_more(wait *it) {
    if (it->member != NULL) {
        __atomic_fetch_sub(&it->queue->waiting, 1, SEQ);
    } else {
        flatpq_count(it->queue, &it->queue->waiting, UINT32_MAX);
    }
}

static void give_up_member(wait *it) {
    if (it->is_own) {
        __atomic_fetch_add(&it->queue->waiting, 1, SEQ);
        flatpq_end(it->mine);
        it->member = NULL;
    }
}

static pq_code begin_again(wait *it, uint64_t until) {
    pq_member *member = &it->queue->own;
    pq_code code = flatpq_begin(&member, until, &it->mine);
    it->member = code == PQ_OK ? member : NULL;
    return code;
}

/* Waits for a member. It keeps its number, unless it is handed on. */
static pq_code wait_for_member(wait *it) {
    pq_queue *queue = it->queue;
    pq_code code;
    __atomic_fetch_or(&queue->stranded, it->number, SEQ);
    if (__atomic_load_n(&queue->holders, SEQ) != 0) {
        flatpq_hand_on(queue);
        flatpq_deliver(queue, __atomic_load_n(&queue->holders, SEQ));
    }
    code = begin_again(it, it->until);
    it->number &= __atomic_fetch_and(&queue->stranded, ~it->number, SEQ);
    it->is_in &= it->number != 0;
    return code;
}

static pq_code get_member(wait *it) {
    pq_code code;
    if (it->member != NULL) {
        return PQ_OK;
    }
    code = begin_again(it, PQ_NOW);
    if (code == PQ_TIMED_OUT && !flatpq_is_late(it->until)) {
        code = wait_for_member(it);
    }
    if (code == PQ_OK) {
        flatpq_wait_no_more(it);
    }
    return code;
}

/* Gets a number. Where none is free it sleeps until one is given back, and may find none then. */
static pq_code get_number(wait *it) {
    uint32_t *unnumbered = &it->queue->unnumbered[kind_of(it)], *given = &it->queue->given[kind_of(it)], seen;
    const uint32_t is_unheld = !it->is_own && it->listening == 0;
    __atomic_fetch_add(unnumbered, 1, SEQ);
    seen = __atomic_load_n(given, SEQ);
    if (!flatpq_take_number(it)) {
        if (__atomic_load_n(&it->queue->gone, SEQ) != 0) {
            flatpq_wake_after(it->member);
        }
        give_up_member(it);
        __atomic_fetch_add(&it->queue->unheld, is_unheld, SEQ);
        flatpq_sleep(given, seen, it->until);
        __atomic_fetch_sub(&it->queue->unheld, is_unheld, SEQ);
        flatpq_take_number(it);
    }
    __atomic_fetch_sub(unnumbered, 1, SEQ);
    return get_member(it);
}

/*
 * Steps.
 */

static int pushes(const wait *it) {
    return it->wants == ROOM || it->wants == ROOM_TO_LISTEN;
}

static pq_code try_step(void *asked) {
    wait *it = asked;
    core *proved = &it->member->proved;
    const uint32_t number = (uint32_t)__builtin_ctzll(it->number);
    pq_code code = flatpq_before(it->member);
    if (code != PQ_OK) {
        return code;
    }
    if (!pushes(it)) {
        return LEAVE_OUT(pq_core_take_or_wait(proved, number, it->item.priority, it->wants, it->answer));
    }
    if (IS_WATCHED) {
        flatpq_tsan_push(it->item);
    }
    return LEAVE_OUT(pq_core_push_or_wait(proved, number, it->item.priority, it->item.value, it->wants, it->answer));
}

/* The word is set before the entry is made. Without a number nothing is entered. */
pq_code flatpq_step(wait *it, uint32_t word, uint64_t until) {
    pq_code code;
    if (it->number == 0) {
        return pushes(it) ? flatpq_push(it->member, it->item, until, it->answer)
                          : flatpq_take_first(it->member, it->item.priority, until, it->answer);
    }
    __atomic_store_n(&flatpq_waiter_of(it)->word, word, SEQ);
    code = try_step(it);
    code = code == LOCK_HELD ? flatpq_try_again(try_step, it, it->queue, until, it->wants == DUE ? LOOK : CALL) : code;
    if (code != PQ_OK && code != ENTERED && code != WATCHES) {
        return code;
    }
    it->is_in = code != PQ_OK;
    it->watches = code == WATCHES;
    return flatpq_looked(it->member, it->answer);
}

/* Where the lock is held until the deadline it tries some times more. */
static pq_code look(wait *it) {
    pq_code code;
    it->item.priority = it->wants == DUE ? flatpq_due_now(it->queue) : it->item.priority;
    code = flatpq_step(it, SLEEPING, it->until);
    return code == PQ_TIMED_OUT ? flatpq_step(it, SLEEPING, AT_ONCE) : code;
}

/* An item may have become due meanwhile. */
static int goes_on(const wait *it, pq_code code) {
    const int is_late = flatpq_is_late(it->until);
    if (code == PQ_NOT_DUE && it->answer->item.priority <= flatpq_due_now(it->queue)) {
        return 1;
    }
    return !flatpq_is_over(code) && !is_late;
}

static pq_code sleep_on(wait *it) {
    uint64_t due = it->watches ? flatpq_due_time(it->queue, it->answer->item.priority) : PQ_FOREVER;
    give_up_member(it);
    flatpq_sleep(&flatpq_waiter_of(it)->word, SLEEPING, due < it->until ? due : it->until);
    return get_member(it);
}

/* Goes on with a wait whose last look came to this. */
static COLD pq_code wait_on(wait *it, pq_code code) {
    while (goes_on(it, code)) {
        pq_code begun = it->is_in ? sleep_on(it) : get_number(it);
        code = begun == PQ_OK ? look(it) : begun;
    }
    flatpq_end_wait(it);
    if (it->member == NULL) {
        flatpq_wait_no_more(it);
    }
    return code;
}

/*
 * The calls.
 */

uint64_t flatpq_due_time(const pq_queue *queue, uint64_t priority) {
    uint64_t time = 0;
    if (priority > queue->time_zero && __builtin_mul_overflow(priority - queue->time_zero, queue->time_unit, &time)) {
        return PQ_FOREVER;
    }
    return time;
}

uint64_t flatpq_due_now(const pq_queue *queue) {
    uint64_t priority;
    return __builtin_add_overflow(queue->time_zero, pq_now() / queue->time_unit, &priority) ? UINT64_MAX : priority;
}

INLINE pq_code take_by(uint32_t wants, pq_member *member, pq_item *item, uint64_t until, uint64_t *number) {
    core_answer answer;
    wait it = { .answer = &answer, .until = until, .wants = wants, .item = { UINT64_MAX, 0 } };
    pq_code code = flatpq_begin_wait(&it, member);
    (void)flatpq_unlisten(&it);
    if (code != PQ_OK) {
        return code;
    }
    code = look(&it);
    if (goes_on(&it, code)) {
        code = wait_on(&it, code);
    }
    flatpq_end(it.mine);
    flatpq_return_first(code, &answer, item, number);
    return code;
}

pq_code pq_take(pq_member *member, pq_item *item, uint64_t until, uint64_t *number) {
    return take_by(ANY, member, item, until, number);
}

pq_code pq_take_due(pq_member *member, pq_item *item, uint64_t until, uint64_t *number) {
    return take_by(DUE, member, item, until, number);
}

/* Goes on with a push that found the queue full. The thread may have another member after this, or none: then the queue may be gone. */
pq_code flatpq_push_to_room(pq_member **member, own **mine, pq_item item, uint64_t until, core_answer *answer) {
    wait it = { .queue = (*member)->queue, .member = *member, .mine = *mine, .is_own = *mine != NULL, .item = item, .answer = answer,
        .until = until, .wants = ROOM, .listening = *mine != NULL ? 0 : (*member)->listens };
    pq_code code = wait_on(&it, PQ_FULL);
    *member = it.member;
    *mine = it.mine;
    return code;
}
