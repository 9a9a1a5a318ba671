/* Each refusal comes where the header says, and changes nothing. Others are in fills.c, archived.c, clock.c, journal.c,
   no_memory.c, forked.c and old_processor.c. */
#include "refused.h"

/* An opening that this code ends, and one with the same that it doesn't. */
static pq_code opening(uint32_t members, uint32_t keeping, uint32_t entries, uint32_t tickets) {
    pq_options options = { 0, 0, 0, 0, 5, 6, 0 };
    pq_queue *queue = (pq_queue *)&options;
    pq_code code;
    options.members = members;
    options.keeping = keeping;
    options.entries = entries;
    options.tickets = tickets;
    code = pq_open(&options, &queue);
    CHECK((code == PQ_OK) == (queue != NULL));
    pq_free(queue, NULL, NULL);
    return code;
}

static void refuses_openings(void) {
    pq_queue *queue = NULL;
    CHECK(pq_open(NULL, &queue) == PQ_OK && queue != NULL);
    close_and_free(queue);
    CHECK(opening(0, PQ_FORGETS, 0, 0) == PQ_OK && opening(64, PQ_REFUSES, 0, 0) == PQ_OK && opening(1, PQ_FILLS, 1, 0) == PQ_OK);
    CHECK(opening(1, PQ_FORGETS, 16, 0) == PQ_OK && opening(1, PQ_REFUSES, 17, 0) == PQ_OK);
    CHECK(opening(64, PQ_FILLS, 1048576, 0) == PQ_OK);
    CHECK(opening(65, PQ_FORGETS, 0, 0) == PQ_BAD_OPTION && opening(UINT32_MAX, PQ_FILLS, 10, 0) == PQ_BAD_OPTION);
    CHECK(opening(1, 3, 0, 0) == PQ_BAD_OPTION && opening(1, UINT32_MAX, 65536, 0) == PQ_BAD_OPTION);
    CHECK(opening(1, PQ_FORGETS, 0, 1) == PQ_OK && opening(1, PQ_FORGETS, 0, 2) == PQ_BAD_OPTION);
    for (uint32_t keeping = PQ_FORGETS; keeping <= PQ_REFUSES; keeping++) {
        CHECK(opening(1, keeping, 1, 0) == PQ_BAD_OPTION && opening(1, keeping, 15, 0) == PQ_BAD_OPTION);
        CHECK(opening(1, keeping, 16777217, 0) == PQ_BAD_OPTION && opening(1, keeping, UINT32_MAX, 0) == PQ_BAD_OPTION);
    }
    CHECK(opening(1, PQ_FILLS, 0, 0) == PQ_BAD_OPTION && opening(1, PQ_FILLS, 1048577, 0) == PQ_BAD_OPTION);
    CHECK(opening(1, PQ_FILLS, UINT32_MAX, 0) == PQ_BAD_OPTION);
}

static void refuses_no_member(void) {
    refuses_all(NULL, PQ_NO_MEMBER, PQ_NOW);
    refuses_all(NULL, PQ_NO_MEMBER, PQ_FOREVER);
    CHECK(pq_place(NULL) == UINT32_MAX && pq_unlisten(NULL) == 0);
}

static void refuses_joining_too_often_and_closing_too_early(void) {
    pq_queue *queue = opened(2);
    pq_member *first = joined(queue), *second = joined(queue), *third = first;
    pq_journal *journal = (pq_journal *)queue;
    CHECK(pq_join(queue, PQ_NOW, &third) == PQ_ALL_JOINED && third == NULL);
    CHECK(pq_join(queue, in_ms(20), &third) == PQ_ALL_JOINED && third == NULL);
    CHECK(pq_place(first) != pq_place(second) && pq_place(second) < 2080);
    CHECK(pq_close(queue, &journal) == PQ_MEMBERS_LEFT && journal == NULL && pq_close(queue, NULL) == PQ_MEMBERS_LEFT);
    pq_give_back(first);
    CHECK(pq_close(queue, &journal) == PQ_MEMBERS_LEFT && pq_push(second, item_of(1, 2), PQ_FOREVER, NULL) == PQ_OK);
    first = joined(queue);
    CHECK(pq_join(queue, PQ_NOW, &third) == PQ_ALL_JOINED);
    pq_give_back(second);
    pq_give_back(first);
    close_and_free(queue);
}

/* Pushes alone are refused until the last item is gone; then calls that wait for an item are, too. */
static void refuses_pushes_once_shut(void) {
    pq_queue *queue = opened(1);
    pq_member *member = joined(queue);
    const pq_item items[2] = { { 1, 2 }, { 3, 4 } };
    pq_item item = item_of(7, 8);
    uint64_t number = 9;
    size_t done = 9;
    CHECK(pq_push(member, item_of(5, 6), PQ_FOREVER, NULL) == PQ_OK && pq_shut(queue) == PQ_OK && pq_shut(queue) == PQ_OK);
    CHECK(pq_push(member, items[0], PQ_FOREVER, &number) == PQ_SHUT && pq_push(member, items[0], PQ_NOW, NULL) == PQ_SHUT && number == 9);
    CHECK(pq_push_many(member, items, 2, PQ_FOREVER, &done, NULL) == PQ_SHUT && done == 0);
    CHECK(pq_peek(member, &item, PQ_FOREVER, &number) == PQ_OK && is_item(item, 5, 6) && number == 2);
    CHECK(pq_take_or_listen(member, 4, &item, NULL, notes_nothing, NULL) == PQ_NOT_DUE && pq_unlisten(member) == 1);
    CHECK(pq_take(member, &item, PQ_FOREVER, &number) == PQ_OK && number == 3);
    CHECK(pq_pop(member, &item, PQ_FOREVER, NULL) == PQ_EMPTY && pq_peek(member, &item, PQ_FOREVER, NULL) == PQ_EMPTY);
    CHECK(pq_pop_due(member, UINT64_MAX, &item, PQ_FOREVER, NULL) == PQ_EMPTY);
    CHECK(pq_take(member, &item, PQ_FOREVER, NULL) == PQ_SHUT && pq_take_due(member, &item, PQ_FOREVER, NULL) == PQ_SHUT);
    CHECK(pq_take(member, &item, in_ms(1000), NULL) == PQ_SHUT && pq_take_due(member, &item, in_ms(1000), NULL) == PQ_SHUT);
    CHECK(pq_take_or_listen(member, 9, &item, NULL, notes_nothing, NULL) == PQ_SHUT && pq_unlisten(member) == 0);
    pq_give_back(member);
    close_and_free(queue);
}

/* Each call of one that is closed. */
static void refuses_as_closed(pq_queue *queue) {
    pq_member *own = pq_own(queue), *member = own;
    pq_journal *journal = (pq_journal *)queue;
    pq_item item = item_of(7, 8);
    uint64_t number = 9;
    refuses_requests(own, PQ_CLOSED, PQ_FOREVER);
    refuses_all(own, PQ_CLOSED, PQ_NOW);
    CHECK(pq_remove(own, 1, &item, PQ_FOREVER, &number) == PQ_CLOSED && is_item(item, 7, 8));
    CHECK(pq_reschedule(own, 1, 5, PQ_FOREVER, &number) == PQ_CLOSED && number == 9 && pq_wait_archived(queue, 9, PQ_FOREVER) == PQ_CLOSED);
    CHECK(pq_join(queue, PQ_FOREVER, &member) == PQ_CLOSED && member == NULL && pq_shut(queue) == PQ_CLOSED);
    CHECK(pq_close(queue, &journal) == PQ_CLOSED && journal == NULL && pq_close(queue, NULL) == PQ_CLOSED);
    CHECK(pq_place(own) == UINT32_MAX && pq_unlisten(own) == 0 && pq_own(queue) == own);
    pq_give_back(own);
    pq_leave(queue);
}

static void refuses_calls_once_closed(void) {
    pq_queue *queue = opened(1);
    pq_journal *journal = NULL;
    CHECK(pq_push(pq_own(queue), item_of(1, 2), PQ_FOREVER, NULL) == PQ_OK);
    CHECK(pq_close(queue, &journal) == PQ_OK && pq_count(journal, NULL) == 1);
    refuses_as_closed(queue);
    pq_free(queue, NULL, NULL);
    pq_journal_free(journal);
}

static pq_queue *ending;

/* Calls the queue that ends, and a new one meanwhile. */
static void is_left(void *context, pq_item item) {
    uint64_t *count = (uint64_t *)context;
    pq_queue *other = opened(1);
    CHECK(is_item(item, (*count)++, 5) && pq_push(pq_own(other), item, PQ_FOREVER, NULL) == PQ_OK);
    refuses_as_closed(ending);
    close_and_free(other);
    refuses_as_closed(ending);
}

/* A queue with items that are left, and a member that is not given back. */
static pq_member *opens_the_ending_one(void) {
    ending = opened(3);
    for (uint64_t i = 0; i < 3; i++) {
        CHECK(pq_push(pq_own(ending), item_of(i, 5), PQ_FOREVER, NULL) == PQ_OK);
    }
    return joined(ending);
}

static void *frees(void *count) {
    pq_free(ending, is_left, count);
    return NULL;
}

static int has_listened, is_freed;

/* Keeps the thread's own member until it ends. */
static void *listens(void *unused) {
    pq_item item;
    CHECK(pq_take_or_listen(pq_own(ending), 0, &item, NULL, notes_nothing, NULL) == PQ_OK && item.priority == 0);
    CHECK(pq_take_or_listen(pq_own(ending), 0, &item, NULL, notes_nothing, NULL) == PQ_NOT_DUE);
    set(&has_listened, 1);
    while (!is_set(&is_freed)) {
        sleep_ms(1);
    }
    return unused;
}

/* In the call that frees it; in the call that gives its last member back, where another thread has freed it; and where its last thread ends. */
static void refuses_calls_while_it_ends(void) {
    uint64_t count = 0;
    pq_member *last = opens_the_ending_one();
    pthread_t thread;
    pq_give_back(last);
    pq_free(ending, is_left, &count);
    CHECK(count == 3);
    count = 0;
    last = opens_the_ending_one();
    ended(started(frees, &count));
    CHECK(count == 0);
    pq_give_back(last);
    CHECK(count == 3);
    pq_give_back(opens_the_ending_one());
    thread = started(listens, NULL);
    while (!is_set(&has_listened)) {
        sleep_ms(1);
    }
    count = 1;
    pq_free(ending, is_left, &count);
    set(&is_freed, 1);
    ended(thread);
    CHECK(count == 3);
}

int main(void) {
    refuses_openings();
    refuses_no_member();
    refuses_joining_too_often_and_closing_too_early();
    refuses_pushes_once_shut();
    refuses_calls_once_closed();
    refuses_calls_while_it_ends();
    return 0;
}
