/* Children that are forked while threads are busy: each call of a child on a queue or a member is refused, and none hangs; a journal is
   read as in the parent. A child that was forked before the first opening opens a queue of its own. */
#include "refused.h"

enum { THREADS = 3, CHILDREN = 60 };

static pq_queue *queue;
static pq_member *member;
static pq_journal *journal;
static int is_over;

static void *works(void *own) {
    pq_item item = { 1, 2 };
    while (!is_set(&is_over)) {
        CHECK(pq_push((pq_member *)own, item, PQ_FOREVER, NULL) == PQ_OK && pq_pop((pq_member *)own, &item, PQ_FOREVER, NULL) == PQ_OK);
    }
    return NULL;
}

static void opens_its_own(void) {
    pq_queue *another = opened(1);
    CHECK(pq_push(pq_own(another), item_of(1, 2), PQ_FOREVER, NULL) == PQ_OK);
    close_and_free(another);
}

/* By a member, and by the own member of the thread that forks, which it has in the parent. */
static void calls_of(pq_member *own) {
    refuses_all(own, PQ_FORKED, PQ_NOW);
    refuses_all(own, PQ_FORKED, in_ms(1000));
    refuses_all(own, PQ_FORKED, PQ_FOREVER);
    CHECK(pq_unlisten(own) == 0);
}

static void calls(void) {
    pq_queue *another = queue;
    pq_member *joining = member;
    pq_journal *closing = journal;
    pq_entry entry;
    char text[PQ_TEXT_ROOM];
    calls_of(member);
    calls_of(pq_own(queue));
    calls_of(NULL);
    CHECK(pq_join(queue, PQ_FOREVER, &joining) == PQ_FORKED && joining == NULL && pq_shut(queue) == PQ_FORKED && pq_is_shut(queue) == 0);
    CHECK(pq_close(queue, &closing) == PQ_FORKED && closing == NULL && pq_close(queue, NULL) == PQ_FORKED);
    CHECK(pq_open(NULL, &another) == PQ_FORKED && another == NULL);
    CHECK(pq_wait_archived(queue, 0, PQ_NOW) == PQ_FORKED && pq_wait_archived(queue, 9, PQ_FOREVER) == PQ_FORKED);
    /* These return nothing, and change nothing. */
    pq_give_back(member);
    pq_leave(queue);
    pq_free(queue, NULL, NULL);
    CHECK(pq_place(member) == UINT32_MAX && pq_place(pq_own(queue)) == UINT32_MAX);
    CHECK(pq_count(journal, NULL) == 1 && pq_read(journal, 0, &entry) == PQ_OK && is_item(entry.item, 5, 6));
    CHECK(pq_text(&entry, text) > 0 && pq_now() > 0 && pq_version() == PQ_VERSION);
    pq_journal_free(journal);
}

static void leaves(void) {
    _exit(0);
}

/* The thread that forked has a member of its own, which its end in the child leaves alone. No tool looks for what other threads have there. */
static void ends_as_a_thread(void) {
    CHECK(atexit(leaves) == 0);
    pthread_exit(NULL);
}

static void grandchildren_are_refused(void) {
    in_child(calls);
}

int main(void) {
    pq_member *members[THREADS];
    pthread_t threads[THREADS];
    pq_item item;
    in_child(opens_its_own);
    queue = opened(THREADS + 2);
    member = joined(queue);
    CHECK(pq_push(member, item_of(5, 6), PQ_FOREVER, NULL) == PQ_OK && pq_archive(member, 0, PQ_FOREVER, &journal) == PQ_OK);
    CHECK(pq_peek(pq_own(queue), &item, PQ_FOREVER, NULL) == PQ_OK);
    for (size_t i = 0; i < THREADS; i++) {
        members[i] = joined(queue);
        threads[i] = started(works, members[i]);
    }
    for (int i = 0; i < CHILDREN; i++) {
        in_child(calls);
    }
    in_child(grandchildren_are_refused);
    in_child(ends_as_a_thread);
    set(&is_over, 1);
    for (size_t i = 0; i < THREADS; i++) {
        ended(threads[i]);
        pq_give_back(members[i]);
    }
    CHECK(pq_pop(pq_own(queue), &item, PQ_FOREVER, NULL) == PQ_OK && pq_pop(member, &item, PQ_FOREVER, NULL) == PQ_EMPTY);
    pq_give_back(member);
    pq_journal_free(journal);
    close_and_free(queue);
    return 0;
}
