/* Queues with a bound: a push to a full queue is refused at once or at its deadline. Who is woken for room, and listens for it, tests/explore
   tries; linearizable.c has threads that push and take at a bound. */
#include "refused.h"

static void is_full(pq_queue *queue, pq_member *member, uint64_t until) {
    uint64_t number = 9;
    CHECK(pq_push(member, item_of(0, 0), until, &number) == PQ_FULL && number == 9 && (until == PQ_NOW || pq_now() >= until));
    CHECK(pq_push(pq_own(queue), item_of(0, 0), until, NULL) == PQ_FULL);
}

static void is_refused_at_its_deadline(void) {
    const pq_item many[] = { { 5, 1 }, { 5, 2 }, { 5, 3 }, { 5, 4 } };
    pq_queue *queue = opened_within(2, 100);
    pq_member *member = joined(queue);
    uint64_t begun = pq_now(), number = 9;
    pq_item item, items[4];
    size_t done = 9;
    CHECK(pq_push_many(member, many, 0, PQ_FOREVER, &done, &number) == PQ_OK && done == 0 && number == 9);
    CHECK(pq_push_many(member, many, 4, PQ_NOW, &done, &number) == PQ_FULL && done == 2 && number == 1 && size_of(queue) == 2);
    is_full(queue, member, PQ_NOW);
    is_full(queue, member, begun);
    is_full(queue, member, in_ms(20));
    CHECK(pq_push_many(member, many, 4, in_ms(20), &done, &number) == PQ_FULL && done == 0 && number == 1);
    CHECK(pq_push_many(member, many, 1, PQ_NOW, &done, NULL) == PQ_FULL && done == 0 && pq_now() < begun + 20000000000);
    CHECK(pq_pop(member, &item, PQ_FOREVER, NULL) == PQ_OK && pq_push(member, many[2], PQ_NOW, &number) == PQ_OK && number == 4);
    is_full(queue, member, PQ_NOW);
    CHECK(pq_pop_due_many(member, 5, items, 4, PQ_FOREVER, &done, NULL) == PQ_OK && done == 2 && is_item(items[1], 5, 3));
    CHECK(pq_push_many(member, many, 2, PQ_FOREVER, &done, &number) == PQ_OK && done == 2 && number == 7 && pq_shut(queue) == PQ_OK);
    CHECK(pq_push(member, item, PQ_FOREVER, NULL) == PQ_SHUT && pq_push_many(member, many, 2, PQ_NOW, &done, NULL) == PQ_SHUT && done == 0);
    pq_give_back(member);
    pq_journal *journal = closed(queue);
    CHECK(pq_count(journal, NULL) == 9);
    pq_journal_free(journal);
}

/* So many pushes have room in a queue with this bound, and the next one is refused so; where its journal is full for good it does not wait. */
static void has_room_for(int pushes, uint64_t most_items, uint32_t entries, pq_code next) {
    pq_queue *queue = opened_within(most_items, entries);
    for (int i = 0; i < pushes; i++) {
        CHECK(pq_push(pq_own(queue), item_of(1, 2), PQ_FOREVER, NULL) == PQ_OK);
    }
    CHECK(pq_push(pq_own(queue), item_of(1, 2), PQ_NOW, NULL) == next && size_of(queue) == (uint64_t)pushes);
    CHECK(next == PQ_FULL || pq_push(pq_own(queue), item_of(1, 2), PQ_FOREVER, NULL) == next);
    close_and_free(queue);
}

static void who_listens_by_its_own_holds_no_member(void) {
    const pq_options options = { 2, PQ_FORGETS, 0, 0, 0, 0, 1 };
    pq_queue *queue;
    CHECK(pq_open(&options, &queue) == PQ_OK);
    pq_member *member = joined(queue);
    CHECK(pq_push_or_listen(member, item_of(1, 2), NULL, notes_nothing, NULL) == PQ_OK);
    CHECK(pq_push_or_listen(member, item_of(1, 2), NULL, notes_nothing, NULL) == PQ_FULL);
    CHECK(pq_push_or_listen(pq_own(queue), item_of(1, 2), NULL, notes_nothing, NULL) == PQ_FULL);
    pq_member *other = joined(queue);
    CHECK(pq_push_or_listen(other, item_of(1, 2), NULL, notes_nothing, NULL) == PQ_ALL_JOINED && pq_unlisten(pq_own(queue)) == 1);
    pq_give_back(other);
    pq_give_back(member);
    close_and_free(queue);
}

int main(void) {
    pq_options options = { 0, 3, 0, 0, 0, 0, 1 };
    pq_queue *queue;
    CHECK(pq_open(&options, &queue) == PQ_BAD_OPTION && queue == NULL);
    is_refused_at_its_deadline();
    who_listens_by_its_own_holds_no_member();
    has_room_for(1, 1, 10, PQ_FULL);
    has_room_for(3, 0, 3, PQ_JOURNAL_FULL);
    has_room_for(3, UINT64_MAX, 3, PQ_JOURNAL_FULL);
    has_room_for(1, 9, 1, PQ_JOURNAL_FULL);
    has_room_for(1, 1, 1, PQ_JOURNAL_FULL);
    return 0;
}
