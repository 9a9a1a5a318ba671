/* Threads hand records on by items: the thread that gets an item owns the record of its value, reads and changes it, and pushes it again.
   All that was written before a push is there after the call that returned the item, and ThreadSanitizer knows. */
#include "../check.h"

enum { THREADS = 4, RECORDS = 8, HOPS = 400 };

/* A record is plain memory: no atomic, and no lock but the queue. */
typedef struct record {
    unsigned hops, of_thread[THREADS];
} record;

static record records[RECORDS];
static pq_queue *queue;

typedef struct worker {
    pthread_t thread;
    pq_member *member;
    unsigned number, ways;
} worker;

static void hand_on(pq_member *member, unsigned hop, pq_item item) {
    size_t done = 0;
    CHECK((hop % 2 == 0 ? pq_push(member, item, PQ_FOREVER, NULL) : pq_push_many(member, &item, 1, PQ_FOREVER, &done, NULL)) == PQ_OK);
}

static void ignores(void *context) {
    (void)context;
}

/* The first three calls use no mutex, by which ThreadSanitizer would think that threads are in order. */
enum { AT_ONCE = 3, ALL = 7 };

static pq_code get(pq_member *member, unsigned way, pq_item *item) {
    size_t done = 0;
    pq_code code;
    switch (way) {
    case 0:
        return pq_pop(member, item, PQ_FOREVER, NULL);
    case 1:
        return pq_pop_due(member, UINT64_MAX, item, PQ_FOREVER, NULL);
    case 2:
        return pq_pop_due_many(member, UINT64_MAX, item, 1, PQ_FOREVER, &done, NULL);
    case 3:
        return pq_take(member, item, in_ms(1), NULL);
    case 4:
        return pq_take_due(member, item, in_ms(1), NULL);
    case 5:
        code = pq_take_due_or_listen(member, -1, item, NULL);
        return code == PQ_NO_TIMER ? PQ_EMPTY : code;
    default:
        code = pq_take_or_listen(member, UINT64_MAX, item, NULL, ignores, NULL);
        pq_unlisten(member);
        return code;
    }
}

static void *works(void *at) {
    const worker *own = (const worker *)at;
    for (unsigned hop = 0; hop < HOPS; hop++) {
        pq_item item = item_of(0, 0);
        pq_code code = get(own->member, hop % own->ways, &item);
        CHECK(code == PQ_OK || code == PQ_EMPTY || code == PQ_TIMED_OUT);
        if (code == PQ_OK) {
            record *it = (record *)(uintptr_t)item.value;
            it->hops++;
            it->of_thread[own->number]++;
            item.priority++;
            hand_on(own->member, hop, item);
        }
    }
    return NULL;
}

/* Each record has as many hops as its item. */
static void are_counted(pq_journal *journal) {
    pq_item item;
    unsigned hops = 0;
    for (size_t left = 0; left < RECORDS; left++) {
        unsigned sum = 0;
        CHECK(pq_take_left(journal, &item) == PQ_OK);
        const record *it = (const record *)(uintptr_t)item.value;
        for (size_t i = 0; i < THREADS; i++) {
            sum += it->of_thread[i];
        }
        CHECK(it->hops == sum && it->hops == item.priority);
        hops += sum;
    }
    CHECK(hops >= THREADS && pq_take_left(journal, &item) == PQ_EMPTY);
    pq_journal_free(journal);
}

static void records_are_handed_on(unsigned ways) {
    worker workers[THREADS];
    queue = opened(THREADS + 1);
    for (size_t i = 0; i < RECORDS; i++) {
        CHECK(pq_push(pq_own(queue), item_of(records[i].hops, (uint64_t)(uintptr_t)&records[i]), PQ_FOREVER, NULL) == PQ_OK);
    }
    for (unsigned i = 0; i < THREADS; i++) {
        workers[i].member = ways == ALL ? pq_own(queue) : joined(queue);
        workers[i].number = i;
        workers[i].ways = ways;
        workers[i].thread = started(works, &workers[i]);
    }
    for (size_t i = 0; i < THREADS; i++) {
        ended(workers[i].thread);
        pq_give_back(ways == ALL ? NULL : workers[i].member);
    }
    are_counted(closed(queue));
}

/* What a thread writes before it pushes an item, and another reads to which the item was returned otherwise than by a pop. */
static unsigned note;

enum way { BY_PEEK, BY_POP_DUE, BY_TAKE_DUE, BY_JOURNAL, WAYS };

static void *writes_note(void *member) {
    note++;
    CHECK(pq_push((pq_member *)member, item_of(UINT64_MAX - 1, 9), PQ_FOREVER, NULL) == PQ_OK);
    sleep_ms(1);
    pq_give_back((pq_member *)member);
    return NULL;
}

/* Reads the note once the item is returned. Nothing else orders the two threads. */
static void a_note_is_there(enum way way) {
    pq_item item;
    pq_journal *journal = NULL;
    pq_code code = PQ_EMPTY;
    queue = opened(2);
    pq_member *here = joined(queue);
    pthread_t thread = started(writes_note, joined(queue));
    /* (a call with PQ_NOW times out where the other thread has the lock) */
    while (way != BY_JOURNAL && (code == PQ_EMPTY || code == PQ_TIMED_OUT)) {
        code = way == BY_PEEK      ? pq_peek(here, &item, PQ_FOREVER, NULL)
               : way == BY_POP_DUE ? pq_pop_due(here, 8, &item, PQ_FOREVER, NULL)
                                   : pq_take_due(here, &item, PQ_NOW, NULL);
    }
    CHECK(code == (way == BY_PEEK ? PQ_OK : way == BY_JOURNAL ? PQ_EMPTY : PQ_NOT_DUE) && (way == BY_JOURNAL || note == (unsigned)way + 1));
    pq_give_back(here);
    while (pq_close(queue, &journal) == PQ_MEMBERS_LEFT) {
        sched_yield();
    }
    CHECK(pq_take_left(journal, &item) == PQ_OK && is_item(item, UINT64_MAX - 1, 9) && note == (unsigned)way + 1);
    pq_journal_free(journal);
    pq_free(queue, NULL, NULL);
    ended(thread);
}

/* What one thread writes before it pushes an item, and another before it moves it. */
static unsigned pushers, movers;
static int ticket;

static void *writes_and_moves(void *member) {
    movers = 1;
    while (is_set(&ticket) == 0) {
        sched_yield();
    }
    CHECK(pq_reschedule((pq_member *)member, (uint64_t)is_set(&ticket), 1, PQ_FOREVER, NULL) == PQ_OK);
    pq_give_back((pq_member *)member);
    return NULL;
}

static void *reads_both(void *member) {
    pq_item item;
    while (pq_pop_due((pq_member *)member, 1, &item, PQ_FOREVER, NULL) != PQ_OK) {
        sched_yield();
    }
    CHECK(is_item(item, 1, 0) && pushers == 1 && movers == 1);
    pq_give_back((pq_member *)member);
    return NULL;
}

static void a_move_hands_on_too(void) {
    const pq_options options = { 0, PQ_FORGETS, 0, 1, 0, 0, 0 };
    CHECK(pq_open(&options, &queue) == PQ_OK);
    pq_member *here = joined(queue);
    pthread_t reader = started(reads_both, joined(queue)), mover = started(writes_and_moves, joined(queue));
    uint64_t number;
    pushers = 1;
    CHECK(pq_push(here, item_of(2, 0), PQ_FOREVER, &number) == PQ_OK);
    set(&ticket, (int)number);
    ended(reader);
    ended(mover);
    pq_give_back(here);
    close_and_free(queue);
}

int main(void) {
    records_are_handed_on(AT_ONCE);
    records_are_handed_on(ALL);
    for (int way = 0; way < WAYS; way++) {
        a_note_is_there((enum way)way);
    }
    a_move_hands_on_too();
    return 0;
}
