/* Small histories of all calls that put items in, take them out or look at them. Each has to be linearizable; one that is not is printed.
   Three threads make some calls at once, and a counter numbers their begins and ends. A search (Wing and Gong 1993) looks for an order of
   these calls in which a sorted list, used by one thread, returns what they returned. The numbers of journal entries are among that. So a
   set of calls leaves one list, whatever order they took, and the search tries each set once (Lowe 2017).

   A batch is one call. Batches that the header excepts are left out. The first shut is a call as others are, with an entry.

   usage: linearizable [HISTORIES [SEED]] */
#include "../check.h"

#include <inttypes.h>
#include <sched.h>
#include <string.h>
#include <sys/timerfd.h>

enum { THREADS = 3, EACH = 5, CALLS = THREADS * EACH, MANY = 3, MOST = CALLS * MANY, ENTRIES = 64 };
enum { HISTORIES = 2000, KEYS = 3, DUE = 1, TICKETS = 12, MENU = 4, DELAY = 64 };

/* Those from LISTEN on never wait. */
enum kind { PUSH, PUSH_MANY, POP, PEEK, POP_DUE, POP_DUE_MANY, SIZE, REMOVE, RESCHEDULE, SHUT, TAKE, TAKE_DUE, LISTEN, ALARM, PUSH_OR_LISTEN, KINDS };

static const char *const names[KINDS] = { "push", "push_many", "pop", "peek", "pop_due", "pop_due_many", "size", "remove", "reschedule", "shut",
                                          "take", "take_due", "take_or_listen", "take_due_or_listen", "push_or_listen" };

/* A call, and what it returned. */
typedef struct call {
    enum kind kind;
    uint64_t key; /* the priority of a reschedule, or the bound of a take */
    uint64_t ticket, until;
    size_t count, delay; /* how many items, and pauses before it */
    pq_item items[MANY]; /* pushed, or returned */
    pq_code code;
    size_t done;
    uint64_t number, size, peak;
    int was_notified;      /* it listened, and is to be made again: it may have looked at nothing */
    uint64_t begun, ended; /* counted in `events` */
} call;

/* A history, which is played: each thread has EACH of its calls. */
static call calls[CALLS];
static pq_queue *queue;
static uint64_t most_items, events, arrived;
static int has_tickets;

/*
 * A sorted list, which says what calls return that are made one after another.
 */
typedef struct list {
    pq_entry left[MOST]; /* items and their tickets */
    size_t count, peak;
    uint64_t entries;
    int is_shut;
} list;

static void put(list *it, pq_item item, uint64_t ticket) {
    size_t at = it->count++;
    for (; at > 0 && it->left[at - 1].item.priority > item.priority; at--) {
        it->left[at] = it->left[at - 1];
    }
    it->left[at].item = item;
    it->left[at].ticket = ticket;
    it->peak = it->count > it->peak ? it->count : it->peak;
}

static pq_item drop(list *it, size_t at) {
    const pq_item item = it->left[at].item;
    for (it->count--; at < it->count; at++) {
        it->left[at] = it->left[at + 1];
    }
    return item;
}

static int is_same(pq_item one, pq_item other) {
    return is_item(one, other.priority, other.value);
}

/* Whether each of these calls returned what the list returns. */
static int fits_push(list *it, const call *made) {
    const int is_full = most_items != 0 && it->count >= most_items;
    if (it->is_shut || is_full) {
        return made->done == 0 && made->code == (it->is_shut ? PQ_SHUT : PQ_FULL);
    }
    for (size_t i = 0; i < made->count; i++) {
        put(it, made->items[i], ++it->entries);
    }
    return made->code == PQ_OK && made->done == made->count && made->number == it->entries + 1 - made->count;
}

static int fits_pop(list *it, const call *made) {
    if (made->number != ++it->entries || it->count == 0) {
        return made->number == it->entries && made->code == PQ_EMPTY;
    }
    return made->code == PQ_OK && is_same(made->items[0], drop(it, 0));
}

static int fits_peek(const list *it, const call *made) {
    const int fits = it->count == 0 ? made->code == PQ_EMPTY : made->code == PQ_OK && is_same(made->items[0], it->left[0].item);
    return fits && made->number == it->entries;
}

static int fits_take(list *it, const call *made) {
    size_t due = 0;
    int are_same = 1;
    if (made->code == PQ_SHUT) {
        return made->kind >= TAKE && it->is_shut && it->count == 0 && made->done == 0;
    }
    for (; due < made->count && it->count > 0 && it->left[0].item.priority <= made->key; due++) {
        are_same &= is_same(made->items[due], drop(it, 0));
    }
    if (due == 0 && made->done == 0) {
        return it->count == 0 ? made->code == PQ_EMPTY : made->code == PQ_NOT_DUE && is_same(made->items[0], it->left[0].item);
    }
    it->entries += due;
    return made->code == PQ_OK && made->done == due && made->number == it->entries + 1 - due && are_same;
}

static int fits_ticket(list *it, const call *made) {
    size_t at = 0;
    pq_item item;
    if (!has_tickets) {
        return made->code == PQ_NO_TICKETS;
    }
    while (at < it->count && it->left[at].ticket != made->ticket) {
        at++;
    }
    if (made->number != ++it->entries || at == it->count) {
        return made->number == it->entries && made->code == PQ_GONE;
    }
    item = drop(it, at);
    if (made->kind == RESCHEDULE) {
        put(it, item_of(made->key, item.value), it->entries);
    }
    return made->code == PQ_OK && (made->kind == RESCHEDULE || is_same(made->items[0], item));
}

static int fits(list *it, const call *made) {
    if (made->code == PQ_TIMED_OUT || made->was_notified) {
        return made->until == PQ_NOW && made->done == 0;
    }
    switch (made->kind) {
    case PUSH:
    case PUSH_MANY:
    case PUSH_OR_LISTEN:
        return fits_push(it, made);
    case POP:
        return fits_pop(it, made);
    case PEEK:
        return fits_peek(it, made);
    case SIZE:
        return made->code == PQ_OK && made->size == it->count && made->peak == it->peak;
    case REMOVE:
    case RESCHEDULE:
        return fits_ticket(it, made);
    case SHUT:
        it->entries += !it->is_shut;
        it->is_shut = 1;
        return made->code == PQ_OK;
    default:
        return fits_take(it, made);
    }
}

/*
 * The search. A set of calls has a bit of each.
 */
static uint8_t tried[1 << CALLS];

/* Whether no other call that is not in this set ended before this one began. */
static int may_be_next(uint32_t set, int next) {
    int may = (set >> next & 1) == 0;
    for (int i = 0; i < CALLS; i++) {
        may &= (set >> i & 1) != 0 || calls[i].ended >= calls[next].begun;
    }
    return may;
}

/* Whether the calls that are not in this set may come in some order after those in it, which have left this list. */
static int may_end(uint32_t set, const list *left) {
    if (set == (1u << CALLS) - 1 || tried[set]) {
        return !tried[set];
    }
    tried[set] = 1;
    for (int i = 0; i < CALLS; i++) {
        list after = *left;
        if (may_be_next(set, i) && fits(&after, &calls[i]) && may_end(set | 1u << i, &after)) {
            return 1;
        }
    }
    return 0;
}

static void print(void) {
    fprintf(stderr, "not linearizable, with most_items = %" PRIu64 ":\n", most_items);
    for (int i = 0; i < CALLS; i++) {
        const call *it = &calls[i];
        fprintf(stderr, "thread %d, %2" PRIu64 " to %2" PRIu64 ": %s, ", i / EACH, it->begun, it->ended, names[it->kind]);
        fprintf(stderr, "key %" PRIu64 ", ticket %" PRIu64 ", %zu items: %s; ", it->key, it->ticket, it->count, pq_code_text(it->code));
        fprintf(stderr, "%zu done, number %" PRIu64 ", size %" PRIu64 ", peak %" PRIu64 ", items", it->done, it->number, it->size, it->peak);
        for (size_t k = 0; k < it->count; k++) {
            fprintf(stderr, " (%" PRIu64 ", %" PRIu64 ")", it->items[k].priority, it->items[k].value);
        }
        fprintf(stderr, "\n");
    }
}

/*
 * Making a history.
 */

static uint64_t draw(unsigned *seed, uint64_t below) {
    return (uint64_t)rand_r(seed) % below;
}

/* A call of a kind of this menu. */
static call drawn(unsigned *seed, const enum kind *menu, uint64_t value) {
    call it = { menu[draw(seed, MENU)], 0, 0, 0, 0, 0, { { 0, 0 } }, PQ_OK, 0, 0, 0, 0, 0, 0, 0 };
    const int is_many = (it.kind == PUSH_MANY && most_items == 0) || it.kind == POP_DUE_MANY;
    const int waits = it.kind < TAKE && (it.kind > PUSH_MANY || most_items == 0) && draw(seed, 4) > 0;
    it.key = it.kind == TAKE ? UINT64_MAX : it.kind > TAKE ? DUE : draw(seed, KEYS);
    it.ticket = 1 + draw(seed, TICKETS);
    it.until = waits ? PQ_FOREVER : PQ_NOW;
    it.count = is_many ? 2 + draw(seed, MANY - 1) : 1;
    it.delay = draw(seed, DELAY);
    for (size_t i = 0; i < it.count; i++) {
        it.items[i] = item_of(draw(seed, KEYS), value + i);
    }
    return it;
}

/*
 * Playing it. What is due is what has a priority up to DUE, at any time.
 */

static void ignore(void *context) {
    (void)context;
}

static pq_code make(pq_member *by, int timer, call *it) {
    switch (it->kind) {
    case PUSH:
        return pq_push(by, it->items[0], it->until, &it->number);
    case PUSH_MANY:
        return pq_push_many(by, it->items, it->count, it->until, &it->done, &it->number);
    case POP:
        return pq_pop(by, it->items, it->until, &it->number);
    case PEEK:
        return pq_peek(by, it->items, it->until, &it->number);
    case POP_DUE:
        return pq_pop_due(by, it->key, it->items, it->until, &it->number);
    case POP_DUE_MANY:
        return pq_pop_due_many(by, it->key, it->items, it->count, it->until, &it->done, &it->number);
    case SIZE:
        return pq_size(by, it->until, &it->size, &it->peak);
    case REMOVE:
        return pq_remove(by, it->ticket, it->items, it->until, &it->number);
    case RESCHEDULE:
        return pq_reschedule(by, it->ticket, it->key, it->until, &it->number);
    case SHUT:
        return pq_shut(queue);
    case TAKE:
        return pq_take(by, it->items, it->until, &it->number);
    case TAKE_DUE:
        return pq_take_due(by, it->items, it->until, &it->number);
    case LISTEN:
        return pq_take_or_listen(by, it->key, it->items, &it->number, ignore, NULL);
    case ALARM:
        return pq_take_due_or_listen(by, timer, it->items, &it->number);
    default:
        return pq_push_or_listen(by, it->items[0], &it->number, ignore, NULL);
    }
}

/* Makes a thread's calls, by its own member or one that it joins. One that is no batch counts as a batch of one. */
static void *plays(void *first) {
    call *it = (call *)first, *end = it + EACH;
    pq_member *member = it->delay % 2 ? joined(queue) : NULL, *by = member != NULL ? member : pq_own(queue);
    const int timer = timerfd_create(CLOCK_MONOTONIC, 0);
    __atomic_fetch_add(&arrived, 1, __ATOMIC_SEQ_CST);
    while (__atomic_load_n(&arrived, __ATOMIC_SEQ_CST) < THREADS) {
        sched_yield();
    }
    for (; it < end; it++) {
        for (size_t k = 0; k < it->delay; k++) {
            __builtin_ia32_pause();
        }
        it->begun = __atomic_add_fetch(&events, 1, __ATOMIC_SEQ_CST);
        it->code = make(by, timer, it);
        it->ended = __atomic_add_fetch(&events, 1, __ATOMIC_SEQ_CST);
        it->done = it->count > 1 ? it->done : it->code == PQ_OK;
        it->was_notified = it->kind >= LISTEN && !pq_unlisten(by) && (it->code == PQ_EMPTY || it->code == PQ_FULL);
    }
    pq_give_back(member);
    close(timer);
    return NULL;
}

static void play_and_check(unsigned *seed) {
    static const list empty;
    pq_options options = { THREADS + 1, PQ_FILLS, ENTRIES, (uint32_t)draw(seed, 2), DUE, UINT64_MAX, draw(seed, 3) == 0 ? 1 + draw(seed, 2) : 0 };
    enum kind menu[MENU]; /* few kinds, so that those that belong together meet; the first puts items in */
    pthread_t threads[THREADS];
    CHECK(pq_open(&options, &queue) == PQ_OK);
    most_items = options.most_items;
    has_tickets = (int)options.tickets;
    for (int i = 0; i < MENU; i++) {
        menu[i] = (enum kind)draw(seed, i == 0 ? POP : KINDS);
    }
    for (int i = 0; i < CALLS; i++) {
        calls[i] = drawn(seed, menu, 10 * (uint64_t)i);
    }
    events = arrived = 0;
    for (int i = 0; i < THREADS; i++) {
        threads[i] = started(plays, &calls[i * EACH]);
    }
    for (int i = 0; i < THREADS; i++) {
        ended(threads[i]);
    }
    pq_free(queue, NULL, NULL);
    memset(tried, 0, sizeof tried);
    if (!may_end(0, &empty)) {
        print();
        exit(1);
    }
}

int main(int argc, char **argv) {
    const uint32_t histories = requests(argc > 1 ? (uint32_t)strtoul(argv[1], NULL, 10) : HISTORIES);
    unsigned seed = argc > 2 ? (unsigned)strtoul(argv[2], NULL, 10) : (unsigned)pq_now();
    fprintf(stderr, "seed %u\n", seed);
    for (uint32_t i = 0; i < histories; i++) {
        play_and_check(&seed);
    }
    return 0;
}
