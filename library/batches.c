/*
 * Batches: many pushes, or pops of items that are due, under one lock.
 *
 * A batch goes to the proved calls in parts of at most 64 items. No part is posted: where the lock is held the call rests, and tries again. A
 * batch of one item is a push, or a pop. Where a push finds the queue full that one waits for room, and the batch goes on after it.
 */
#include "inside.h"

enum { MOST_AT_ONCE = 64 };

/* Items to push, or room for the items that are popped; and how far the batch is. */
typedef struct batch {
    pq_member *member;
    own *mine;
    uint32_t kind; /* KIND_PUSHED or KIND_POPPED, and these are its items */
    const pq_item *pushed;
    pq_item *popped;
    uint64_t bound;
    uint64_t until;
    size_t done, part; /* so many; the next part has so many */
    uint64_t number;   /* of the first one's journal entry, if any is done */
    core_popped came;  /* to this the last part came */
} batch;

static void count_done(batch *it, size_t count, uint64_t number) {
    if (it->done == 0) {
        it->number = number;
    }
    it->done += count;
}

static void watch(const pq_item *items, size_t count, void (*tell)(pq_item item)) {
    if (!LIKELY((flatpq_special & WATCHED) == 0)) {
        for (size_t i = 0; i < count; i++) {
            tell(items[i]);
        }
    }
}

static pq_code try_part(void *asked) {
    batch *it = asked;
    core *proved = &it->member->proved;
    pq_code code = flatpq_before(it->member);
    if (code != PQ_OK) {
        return code;
    }
    if (it->kind == KIND_PUSHED) {
        watch(it->pushed + it->done, it->part, flatpq_tsan_push);
        return LEAVE_OUT(pq_core_try_push_many(proved, it->pushed + it->done, it->part, &it->came.batch));
    }
    return LEAVE_OUT(pq_core_try_pop_many(proved, it->bound, it->popped + it->done, it->part, &it->came));
}

/* What a part came to: what refused the next item, or of pops that took none why. */
static pq_code came_to(batch *it) {
    const core_batch *did = &it->came.batch;
    const core_answer answer = { it->kind, did->owes_wake, 0, { 0, 0 } };
    if (it->kind == KIND_POPPED && did->done == 0 && did->refused == 0) {
        return flatpq_looked(it->member, &it->came.next);
    }
    if (it->kind == KIND_POPPED) {
        watch(it->popped + it->done, (size_t)did->done, flatpq_tsan_pop);
    }
    count_done(it, (size_t)did->done, did->first);
    flatpq_carried_out(it->member, &answer);
    return did->refused == REFUSED_NO_MEMORY ? PQ_NO_MEMORY : (pq_code)did->refused;
}

/* The next item waits for room. */
static pq_code push_to_room(batch *it) {
    core_answer answer;
    pq_code code = flatpq_push_to_room(&it->member, &it->mine, it->pushed[it->done], it->until, &answer);
    if (code == PQ_OK) {
        count_done(it, 1, answer.number);
    }
    return code;
}

static pq_code carry_out_all(batch *it, size_t count) {
    pq_code code = PQ_OK;
    while (code == PQ_OK && it->done < count) {
        const size_t left = count - it->done;
        it->part = left < MOST_AT_ONCE ? left : MOST_AT_ONCE;
        code = flatpq_try(try_part, it, it->member->queue, it->until);
        code = code == PQ_OK ? came_to(it) : code;
        if (code == PQ_FULL && it->kind == KIND_PUSHED && it->until != PQ_NOW) {
            code = push_to_room(it);
        } else if (code == PQ_OK && it->came.batch.done < it->part) {
            return code;
        }
    }
    return code;
}

/* Returns what the batch came to: *number stays where nothing was done. */
static void return_done(const batch *it, size_t *done, uint64_t *number) {
    *done = it->done;
    if (it->done > 0 && number != NULL) {
        *number = it->number;
    }
}

pq_code pq_push_many(pq_member *member, const pq_item *items, size_t count, uint64_t until, size_t *done, uint64_t *number) {
    own *mine;
    pq_code code;
    if (count == 1) {
        code = pq_push(member, *items, until, number);
        *done = code == PQ_OK;
        return code;
    }
    code = flatpq_begin(&member, until, &mine);
    *done = 0;
    if (code == PQ_OK) {
        batch all = { .member = member, .mine = mine, .kind = KIND_PUSHED, .pushed = items, .until = until };
        code = carry_out_all(&all, count);
        return_done(&all, done, number);
        flatpq_end(all.mine);
    }
    return code;
}

pq_code pq_pop_due_many(pq_member *member, uint64_t priority, pq_item *items, size_t room, uint64_t until, size_t *done, uint64_t *number) {
    own *mine;
    pq_code code;
    if (room == 1) {
        code = pq_pop_due(member, priority, items, until, number);
        *done = code == PQ_OK;
        return code;
    }
    code = flatpq_begin(&member, until, &mine);
    *done = 0;
    if (code == PQ_OK) {
        batch all = { .member = member, .kind = KIND_POPPED, .popped = items, .bound = priority, .until = until };
        code = flatpq_polled(carry_out_all(&all, room));
        if (code == PQ_NOT_DUE && all.done == 0) {
            *items = all.came.next.item;
        }
        return_done(&all, done, number);
        flatpq_end(mine);
    }
    return *done > 0 ? PQ_OK : code;
}
