/*
 * Requests of a member.
 *
 * A call that finds the lock held tries it again for a microsecond. Then it posts its request, which the thread that has the lock carries out,
 * and waits for the answer. A call with a deadline, and a peek, posts nothing, and only tries. So it has done nothing where it times out.
 */
#include "inside.h"

/*
 * The proved calls, with what follows each of them. The thread that carries a push out wakes threads that wait for its item.
 */

/* A call of push, pop or peek. The answer comes last, as the proved call gets its address: a compiler would keep that of the whole call in a
   register meanwhile, if it were the same. */
typedef struct call {
    pq_member *member;
    own *mine;    /* the thread's record of the member, where that is its own */
    pq_item item; /* of a push */
    uint64_t until;
    pq_item *first; /* where the item goes that a pop or a peek finds */
    uint64_t *number; /* where the number in the answer goes */
    core_answer answer;
} call;

static void watch_push(uint32_t request, const call *it) {
    if (IS_WATCHED && request == PQ_PUSH) {
        flatpq_tsan_push(it->item);
    }
}

static void watch_answer(const core_answer *answer) {
    if (IS_WATCHED && (answer->kind == KIND_POPPED || answer->kind == KIND_FIRST)) {
        flatpq_tsan_pop(answer->item);
    }
}

/* Carries the request out where the lock is free, and does not look at what comes of it. What keeps a shut from being made is no answer. A peek is
   made where a shut has to wait for the archive. */
INLINE pq_code try_once(uint32_t request, call *it) {
    core *proved = &it->member->proved;
    pq_code code = flatpq_before(it->member);
    if (!LIKELY(code == PQ_OK) && (request != PQ_PEEK || code == LOCK_HELD)) {
        return code == LOCK_HELD || code == PQ_UNARCHIVED ? code : PQ_EXHAUSTED;
    }
    switch (request) {
    case PQ_PUSH:
        return pq_core_try_push(proved, it->item.priority, it->item.value, &it->answer);
    case PQ_POP:
        return pq_core_try_pop(proved, it->first, &it->answer);
    default:
        return pq_core_try_peek(proved, it->first, &it->answer);
    }
}

/* The code of a request that was tried once: PQ_OK where it was carried out. Then it has its whole answer. */
static pq_code answered(uint32_t request, pq_code code, call *it) {
    if (code == ANSWERED) {
        return PQ_OK;
    }
    if (code == PQ_OK) {
        it->answer.kind = request;
        it->answer.owes_wake = 0;
        it->answer.item = request == PQ_PUSH ? it->item : *it->first;
    }
    return code;
}

static pq_code try_call(uint32_t request, call *it) {
    pq_code code;
    watch_push(request, it);
    code = answered(request, LEAVE_OUT(try_once(request, it)), it);
    if (code == PQ_OK) {
        watch_answer(&it->answer);
        flatpq_carried_out(it->member, &it->answer);
    }
    return code;
}

/* Looks for the answer, and else makes a round, which returns NOT_ANSWERED, or finds the lock held. */
static pq_code step_answer(pq_member *it, core_answer *answer) {
    pq_code code = LEAVE_OUT(pq_core_step_answer(&it->proved, answer));
    flatpq_pace.calls++;
    if (code == PQ_OK) {
        watch_answer(answer);
        flatpq_carried_out(it, answer);
    } else if (code == NOT_ANSWERED) {
        flatpq_wake_after(it);
    }
    return code;
}

/*
 * Push, pop and peek.
 */

/* Waits until the posted request has its answer. */
static pq_code wait_for_answer(call *it, rest *resting) {
    for (;;) {
        pq_code code = step_answer(it->member, &it->answer);
        if (code == LOCK_HELD) {
            flatpq_rests(resting);
        } else if (code != NOT_ANSWERED) {
            return code;
        }
    }
}

/* Posts the request, and waits for its answer. LOCK_HELD: a shut waits to be carried out, and nothing is posted. */
static pq_code post(uint32_t request, call *it, rest *resting) {
    const pq_item none = { 0, 0 }, item = request == PQ_PUSH ? it->item : none;
    pq_code code = flatpq_before(it->member);
    if (code == PQ_OK) {
        code = LEAVE_OUT(pq_core_post(&it->member->proved, request, item.priority, item.value));
    }
    return code == PQ_OK ? wait_for_answer(it, resting) : code;
}

typedef struct trying {
    uint32_t request;
    call *it;
} trying;

static pq_code try_again(void *asked) {
    const trying *again = asked;
    return try_call(again->request, again->it);
}

static pq_code try_until(uint32_t request, call *it) {
    trying again = { request, it };
    return flatpq_try_again(try_again, &again, it->member->queue, it->until, CALL);
}

static pq_code try_and_post(uint32_t request, call *it) {
    rest resting = flatpq_rest_of(it->member->queue, PQ_FOREVER, MAY_POST);
    pq_code code = LOCK_HELD;
    while (code == LOCK_HELD && resting.now < resting.posts && flatpq_spins(&resting)) {
        code = try_call(request, it);
    }
    while (code == LOCK_HELD && (code = try_call(request, it)) == LOCK_HELD && (code = post(request, it, &resting)) == LOCK_HELD) {
        flatpq_rests(&resting);
    }
    flatpq_rested(&resting);
    return code;
}

/* Carries a request out that found the lock held. A peek is never posted. */
static pq_code ask_again(uint32_t request, call *it) {
    return it->until == PQ_FOREVER && request != PQ_PEEK ? try_and_post(request, it) : try_until(request, it);
}

pq_code flatpq_refusal(uint32_t kind) {
    static const uint8_t codes[] = { [KIND_JOURNAL_FULL] = PQ_JOURNAL_FULL, [KIND_NO_MEMORY] = PQ_NO_MEMORY, [KIND_SHUT] = PQ_SHUT,
        [KIND_UNARCHIVED] = PQ_UNARCHIVED, [KIND_FULL] = PQ_FULL };
    return (pq_code)codes[kind];
}

/* What an answer comes to that has no item. */
static pq_code result_of(const core_answer *answer, uint64_t *number) {
    if ((answer->kind == KIND_PUSHED || answer->kind == KIND_EMPTY) && number != NULL) {
        *number = answer->number;
    }
    switch (answer->kind) {
    case KIND_PUSHED:
        return PQ_OK;
    case KIND_EMPTY:
        return PQ_EMPTY;
    default:
        return flatpq_refusal(answer->kind);
    }
}

/* What an answer comes to. */
INLINE pq_code result(const core_answer *answer, pq_item *item, uint64_t *number) {
    if (!LIKELY(answer->kind == KIND_POPPED || answer->kind == KIND_FIRST)) {
        return result_of(answer, number);
    }
    flatpq_copy(item, &answer->item);
    if (number != NULL) {
        *number = answer->number;
    }
    return PQ_OK;
}

/* Ends a call that has its answer, or this code instead. A push that found the queue full waits for room first. */
static pq_code end(call *it, own *mine, pq_code code) {
    if (code == PQ_OK && it->answer.kind == KIND_FULL && it->until != PQ_NOW) {
        code = flatpq_push_to_room(&it->member, &mine, it->item, it->until, &it->answer);
    }
    flatpq_end(mine);
    return code == PQ_OK ? result(&it->answer, it->first, it->number) : code;
}

/* Goes on with a call whose request was tried once. */
static COLD pq_code go_on(uint32_t request, pq_code code, call *it, own *mine) {
    code = answered(request, code, it);
    if (code == LOCK_HELD) {
        code = ask_again(request, it);
    } else if (code == PQ_OK) {
        flatpq_carried_out(it->member, &it->answer);
    }
    return end(it, mine, code);
}

/* Makes any call. */
static COLD pq_code ask_fully(uint32_t request, call *it) {
    pq_code code = flatpq_begin(&it->member, it->until, &it->mine);
    if (code != PQ_OK) {
        return code;
    }
    code = try_call(request, it);
    return end(it, it->mine, code == LOCK_HELD ? ask_again(request, it) : code);
}

_Static_assert(KIND_PUSHED == (int)PQ_PUSH && KIND_POPPED == (int)PQ_POP && KIND_FIRST == (int)PQ_PEEK, "the usual answers");

/* Whether the request was carried out, and has the usual answer, and nobody is to be woken. */
INLINE int is_done(pq_code code, const call *it) {
    return LIKELY(code == PQ_OK) && LIKELY(__atomic_load_n(&it->member->queue->gone, __ATOMIC_RELAXED) == 0);
}

/* What a call returns whose request is done. */
INLINE pq_code returned(const call *it) {
    if (it->number != NULL) {
        *it->number = it->answer.number;
    }
    return PQ_OK;
}

INLINE pq_code ask_by_own(uint32_t request, call *it) {
    own *last = flatpq_thread.last;
    pq_code code;
    if (!LIKELY(last->shared == it->member) || !flatpq_enter(last, 0)) {
        return ask_fully(request, it);
    }
    it->mine = last;
    it->member = last->member;
    code = try_once(request, it);
    if (!is_done(code, it)) {
        return go_on(request, code, it, it->mine);
    }
    flatpq_leave(it->mine, 0);
    return returned(it);
}

/* Makes a call as most are: nothing is special, the member is joined, or is the one that the thread used last, and the lock is free. What the call
   needs later lies in memory meanwhile, and in no register, which it would have to save. */
INLINE pq_code ask(uint32_t request, call *it) {
    pq_code code;
    if (!LIKELY(flatpq_special == 0) || !LIKELY(it->member != NULL)) {
        return ask_fully(request, it);
    }
    if (!LIKELY(!it->member->is_shared)) {
        return ask_by_own(request, it);
    }
    code = try_once(request, it);
    return is_done(code, it) ? returned(it) : go_on(request, code, it, NULL);
}

pq_code flatpq_push(pq_member *member, pq_item item, uint64_t until, core_answer *answer) {
    call it = { .member = member, .item = item, .until = until };
    pq_code code = try_call(PQ_PUSH, &it);
    code = code == LOCK_HELD ? ask_again(PQ_PUSH, &it) : code;
    *answer = it.answer;
    return code == PQ_OK ? result_of(answer, NULL) : code;
}

pq_code pq_push(pq_member *member, pq_item item, uint64_t until, uint64_t *number) {
    call it;
    it.member = member;
    it.item = item;
    it.until = until;
    it.number = number;
    return ask(PQ_PUSH, &it);
}

INLINE pq_code ask_first(uint32_t request, pq_member *member, pq_item *item, uint64_t until, uint64_t *number) {
    call it;
    it.member = member;
    it.until = until;
    it.first = item;
    it.number = number;
    return ask(request, &it);
}

pq_code pq_pop(pq_member *member, pq_item *item, uint64_t until, uint64_t *number) {
    return ask_first(PQ_POP, member, item, until, number);
}

pq_code pq_peek(pq_member *member, pq_item *item, uint64_t until, uint64_t *entries) {
    return ask_first(PQ_PEEK, member, item, until, entries);
}

/*
 * Taking the first item out, or looking at it, which has no entry. No other thread does it for this one.
 */

INLINE pq_code taken(pq_member *it, pq_code code, const core_answer *answer) {
    if (!LIKELY(code == PQ_OK)) {
        return code;
    }
    watch_answer(answer);
    flatpq_carried_out(it, answer);
    switch (answer->kind) {
    case KIND_POPPED:
        return PQ_OK;
    case KIND_FIRST:
        return PQ_NOT_DUE;
    case KIND_EMPTY:
        return PQ_EMPTY;
    default:
        return flatpq_refusal(answer->kind);
    }
}

pq_code flatpq_looked(pq_member *it, const core_answer *answer) {
    return taken(it, PQ_OK, answer);
}

typedef struct taking {
    pq_member *member;
    uint64_t priority;
    core_answer *answer;
} taking;

static pq_code try_take(void *asked) {
    const taking *it = asked;
    pq_code code = flatpq_before(it->member);
    return code != PQ_OK ? code : LEAVE_OUT(pq_core_try_pop_or_look(&it->member->proved, 1, it->priority, it->answer));
}

pq_code flatpq_take_first(pq_member *member, uint64_t priority, uint64_t until, core_answer *answer) {
    taking it = { member, priority, answer };
    return taken(member, flatpq_try(try_take, &it, member->queue, until), answer);
}

void flatpq_return_first(pq_code code, const core_answer *answer, pq_item *item, uint64_t *number) {
    if (code == PQ_OK || code == PQ_NOT_DUE) {
        flatpq_copy(item, &answer->item);
        if (code == PQ_OK && number != NULL) {
            *number = answer->number;
        }
    }
}

pq_code pq_pop_due(pq_member *it, uint64_t priority, pq_item *item, uint64_t until, uint64_t *number) {
    core_answer answer = { KIND_EMPTY, 0, 0, { 0, 0 } };
    own *mine;
    pq_code code = flatpq_begin(&it, until, &mine);
    if (LIKELY(code == PQ_OK)) {
        code = flatpq_polled(flatpq_take_first(it, priority, until, &answer));
        flatpq_end(mine);
        flatpq_return_first(code, &answer, item, number);
    }
    return code;
}

/*
 * Counting the items.
 */

typedef struct sizing {
    pq_member *member;
    uint64_t *size, *peak;
    core_answer answer;
} sizing;

/* A count is made where a shut has to wait for the archive. */
static pq_code try_size(void *asked) {
    sizing *it = asked;
    uint64_t unasked, *peak = it->peak != NULL ? it->peak : &unasked;
    if (flatpq_before(it->member) == LOCK_HELD) {
        return LOCK_HELD;
    }
    return LEAVE_OUT(pq_core_try_count(&it->member->proved, it->size, peak, &it->answer.owes_wake));
}

pq_code pq_size(pq_member *member, uint64_t until, uint64_t *size, uint64_t *peak) {
    sizing it = { member, size, peak, { KIND_FIRST, 0, 0, { 0, 0 } } };
    own *mine;
    pq_code code = flatpq_begin(&it.member, until, &mine);
    if (!LIKELY(code == PQ_OK)) {
        return code;
    }
    code = flatpq_try(try_size, &it, it.member->queue, until);
    if (LIKELY(code == PQ_OK)) {
        it.answer.kind = *size == 0 ? KIND_EMPTY : KIND_FIRST;
        flatpq_carried_out(it.member, &it.answer);
    }
    flatpq_end(mine);
    return code;
}
