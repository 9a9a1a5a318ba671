/*
 * Removals and moves by ticket. Like taking the first item out, they are carried out by their own thread under the lock, and never posted.
 */
#include "inside.h"

/* What is done with the item of a ticket: it is removed, or moved to this priority. */
typedef struct deed {
    pq_member *member;
    uint64_t ticket;
    uint64_t priority;
    int moves;
    core_answer answer;
} deed;

static pq_code try_deed(void *asked) {
    deed *it = asked;
    core *proved = &it->member->proved;
    pq_code code = flatpq_before(it->member);
    if (code != PQ_OK) {
        return code;
    }
    if (it->moves && IS_WATCHED) {
        flatpq_tsan_move();
    }
    return LEAVE_OUT(it->moves ? pq_core_try_reschedule(proved, it->ticket, it->priority, &it->answer)
                               : pq_core_try_remove(proved, it->ticket, &it->answer));
}

/* What an answer comes to. */
static pq_code result(const core_answer *answer) {
    switch (answer->kind) {
    case KIND_POPPED:
        return PQ_OK;
    case KIND_EMPTY:
        return PQ_GONE;
    default:
        return flatpq_refusal(answer->kind);
    }
}

static pq_code do_until(deed *it, uint64_t until) {
    pq_code code = flatpq_try(try_deed, it, it->member->queue, until);
    if (code != PQ_OK) {
        return code;
    }
    if (!it->moves && it->answer.kind == KIND_POPPED && IS_WATCHED) {
        flatpq_tsan_pop(it->answer.item);
    }
    flatpq_carried_out(it->member, &it->answer);
    return result(&it->answer);
}

/* Makes a call by ticket: the item, as it was, where that is asked for. */
INLINE pq_code by_ticket(deed *it, pq_item *item, uint64_t until, uint64_t *number) {
    own *mine;
    pq_code code = flatpq_begin(&it->member, until, &mine);
    if (code != PQ_OK) {
        return code;
    }
    code = it->member->has_tickets ? do_until(it, until) : PQ_NO_TICKETS;
    flatpq_end(mine);
    if (code == PQ_OK && item != NULL) {
        flatpq_copy(item, &it->answer.item);
    }
    if ((code == PQ_OK || code == PQ_GONE) && number != NULL) {
        *number = it->answer.number;
    }
    return code;
}

pq_code pq_remove(pq_member *member, uint64_t ticket, pq_item *item, uint64_t until, uint64_t *number) {
    deed removal = { .member = member, .ticket = ticket };
    return by_ticket(&removal, item, until, number);
}

pq_code pq_reschedule(pq_member *member, uint64_t ticket, uint64_t priority, uint64_t until, uint64_t *number) {
    deed move = { .member = member, .ticket = ticket, .priority = priority, .moves = 1 };
    return by_ticket(&move, NULL, until, number);
}
