/*
 * Words of scenarios: requests and takes. Each says to check.c what its call came to.
 */
#include "explore.h"

#include <string.h>

static const pq_item none = { 0, 0 };
pq_member *used[MOST_FIBERS];
static uint64_t ticket, value;

void requests_begin(void) {
    ticket = value = 0;
}

uint64_t next_value(void) {
    return ++value;
}

pq_item new_item(uint64_t priority) {
    const pq_item made = { priority, next_value() };
    return made;
}

/* Pushes before the threads begin. */
void put(uint64_t priority) {
    uint64_t entry = 0;
    pq_code code = pq_push(used[0], new_item(priority), PQ_NOW, &entry);
    ticket = code == PQ_OK && ticket == 0 ? entry : ticket;
}

/* Makes so many entries before there is any item. */
void use_entries(uint64_t count) {
    pq_item item;
    while (count-- > 0) {
        (void)!pq_pop(used[0], &item, PQ_NOW, NULL);
    }
}

static pq_code push_item(int which, const uint64_t *numbers) {
    const pq_item item = new_item(numbers[0]);
    const int was_full = is_journal_full();
    uint64_t entry = 0;
    pq_code code;
    check_call_begins(PUSHES, numbers[1], 0);
    code = pq_push(used[which], item, numbers[1], &entry);
    check_call_ends(PQ_PUSH, code, item, entry);
    if (was_full && code != PQ_JOURNAL_FULL && code != PQ_SHUT && code != PQ_TIMED_OUT && code != PQ_CLOSED) {
        fail("the journal is full, and a push returns %s", pq_code_text(code));
    }
    if (refuses_keys && code != PQ_NO_MEMORY) {
        fail("a thread whose end nobody sees to has a member");
    }
    ticket = code == PQ_OK && ticket == 0 ? entry : ticket;
    return code;
}

static void push(int which, const uint64_t *numbers) {
    (void)push_item(which, numbers);
}

static void push_archived(int which, const uint64_t *numbers) {
    while_refused(push_item, which, numbers);
}

/* So many items of one priority. */
static void push_many(int which, const uint64_t *numbers) {
    enum { MOST = 8 };
    pq_item items[MOST];
    size_t count = 0, carried;
    while (count < numbers[1] && count < MOST) {
        items[count++] = new_item(numbers[0]);
    }
    check_call_begins(PUSHES, numbers[2], 0);
    (void)!pq_push_many(used[which], items, count, numbers[2], &carried, NULL);
    check_call_begins(NO_CALL, PQ_FOREVER, 0);
}

typedef pq_code taking(pq_member *member, pq_item *item, uint64_t until, uint64_t *number);

static pq_code take_by(taking *takes, enum call call, int which, uint64_t until) {
    const uint64_t late = 60000;
    pq_item item = none;
    uint64_t entry = 0;
    pq_code code;
    check_call_begins(call, until, 0);
    code = takes(used[which], &item, until, &entry);
    check_call_ends(PQ_POP, code, item, code == PQ_OK || call == CALLS ? entry : 0);
    if (call == TAKES_DUE && code == PQ_NOT_DUE && until != PQ_NOW && item.priority <= until && item.priority + late <= now) {
        fail("a take returns %s at %llu, and the item was due at %llu", pq_code_text(code), (unsigned long long)now,
             (unsigned long long)item.priority);
    }
    return code;
}

static void pop(int which, const uint64_t *numbers) {
    (void)take_by(pq_pop, CALLS, which, numbers[0]);
}

static pq_code take_item(int which, const uint64_t *numbers) {
    return take_by(pq_take, TAKES, which, numbers[0]);
}

static void take(int which, const uint64_t *numbers) {
    (void)take_item(which, numbers);
}

static void take_archived(int which, const uint64_t *numbers) {
    while_refused(take_item, which, numbers);
}

static void take_all(int which, const uint64_t *numbers) {
    while (take_item(which, numbers) == PQ_OK) {
    }
}

/* Polls until the end. */
static void poll_by(taking *takes, enum call call, int which) {
    const uint64_t pause = 100000;
    pq_code code;
    while ((code = take_by(takes, call, which, PQ_NOW)) != PQ_SHUT) {
        if (code != PQ_OK) {
            block(NAPS, NULL, now + pause);
        }
    }
}

static void poll_all(int which, const uint64_t *numbers) {
    poll_by(pq_take, TAKES, which);
}

static void poll_due_all(int which, const uint64_t *numbers) {
    poll_by(pq_take_due, TAKES_DUE, which);
}

static void take_due(int which, const uint64_t *numbers) {
    (void)take_by(pq_take_due, TAKES_DUE, which, numbers[0]);
}

static void take_due_all(int which, const uint64_t *numbers) {
    while (take_by(pq_take_due, TAKES_DUE, which, numbers[0]) == PQ_OK) {
    }
}

static void peek(int which, const uint64_t *numbers) {
    pq_item item = none;
    uint64_t before = 0;
    pq_code code;
    check_call_begins(CALLS, numbers[0], 0);
    code = pq_peek(used[which], &item, numbers[0], &before);
    check_call_ends(PEEKED, code, item, before);
    if (code != PQ_OK && code != PQ_EMPTY && code != PQ_TIMED_OUT && code != PQ_CLOSED) {
        fail("a peek returns %s", pq_code_text(code));
    }
}

static void pop_due(int which, const uint64_t *numbers) {
    pq_item item = none;
    uint64_t entry = 0;
    pq_code code;
    check_call_begins(CALLS, numbers[1], 0);
    code = pq_pop_due(used[which], numbers[0], &item, numbers[1], &entry);
    check_call_ends(PQ_POP, code, item, code == PQ_OK ? entry : 0);
}

/* As many items up to this priority. */
static void pop_many(int which, const uint64_t *numbers) {
    enum { MOST = 8 };
    pq_item items[MOST], bound = { numbers[0], 0 };
    const size_t room = numbers[1] < MOST ? numbers[1] : MOST;
    uint64_t entry = 0;
    size_t carried = 0;
    check_call_begins(CALLS, PQ_FOREVER, 0);
    (void)!pq_pop_due_many(used[which], numbers[0], items, room, PQ_FOREVER, &carried, &entry);
    for (size_t i = 0; i < carried; i++) {
        check_call_ends(PQ_POP, PQ_OK, items[i], entry + i);
    }
    if (carried > 0 && carried < room) {
        check_call_ends(LEAVES_NONE, PQ_OK, bound, entry + carried - 1);
    }
    check_call_begins(NO_CALL, PQ_FOREVER, 0);
}

static void remove_first(int which, const uint64_t *numbers) {
    pq_item item = none;
    uint64_t entry = 0;
    pq_code code;
    check_call_begins(CALLS, numbers[0], 0);
    code = pq_remove(used[which], ticket, &item, numbers[0], &entry);
    check_call_ends(PQ_REMOVE, code, item, entry);
}

static void move_first(int which, const uint64_t *numbers) {
    uint64_t entry = 0;
    pq_code code;
    check_call_begins(CALLS, numbers[1], 0);
    code = pq_reschedule(used[which], ticket, numbers[0], numbers[1], &entry);
    check_call_ends(PQ_RESCHEDULE, code, none, entry);
}

static void count_items(int which, const uint64_t *numbers) {
    pq_item found = none;
    pq_code code;
    check_call_begins(CALLS, numbers[0], 0);
    code = pq_size(used[which], numbers[0], &found.priority, &found.value);
    check_call_ends(SIZED, code, found, 0);
}

/*
 * Calls that find the lock held, and post their requests. The thread then stays until that time, while others may carry them out.
 */

static void post(void (*call)(int which, const uint64_t *numbers), int which, const uint64_t *numbers, uint64_t until) {
    me->posts_until = until == PQ_FOREVER ? 1 : until;
    call(which, numbers);
    me->posts_until = 0; /* where the call was refused */
}

static void post_push(int which, const uint64_t *numbers) {
    const uint64_t push_numbers[] = { numbers[0], PQ_FOREVER };
    post(push, which, push_numbers, numbers[1]);
}

static void post_pop(int which, const uint64_t *numbers) {
    const uint64_t until[] = { PQ_FOREVER };
    post(pop, which, until, numbers[0]);
}

const word request_words[] = {
    { "push", push },
    { "push-archived", push_archived },
    { "push-many", push_many },
    { "pop", pop },
    { "take", take },
    { "take-archived", take_archived },
    { "take-all", take_all },
    { "poll-all", poll_all },
    { "poll-due-all", poll_due_all },
    { "take-due", take_due },
    { "take-due-all", take_due_all },
    { "peek", peek },
    { "pop-due", pop_due },
    { "pop-many", pop_many },
    { "remove", remove_first },
    { "move", move_first },
    { "size", count_items },
    { "post-push", post_push },
    { "post-pop", post_pop },
    { NULL, NULL },
};
