/* pq_size: how many items there are after each call that puts some in or takes some out, and were at most, without an entry. linearizable.c has
   it beside other threads. */
#include "../check.h"

static void is_of(pq_queue *queue, pq_member *member, uint64_t wanted) {
    const uint64_t until[] = { PQ_FOREVER, PQ_NOW, in_ms(60000) };
    for (size_t i = 0; i < sizeof until / sizeof *until; i++) {
        uint64_t size = UINT64_MAX;
        CHECK(pq_size(member, until[i], &size, NULL) == PQ_OK && size == wanted && size_of(queue) == wanted);
    }
}

static void follows_each_call(void) {
    const pq_item many[] = { { 3, 3 }, { 4, 4 }, { 5, 5 } };
    pq_queue *queue = opened(2);
    pq_member *member = joined(queue);
    pq_item item, items[3];
    uint64_t number = 0;
    size_t done = 0;
    is_of(queue, member, 0);
    CHECK(pq_push(member, item_of(9, 9), PQ_FOREVER, NULL) == PQ_OK && pq_push(pq_own(queue), item_of(1, 1), PQ_NOW, NULL) == PQ_OK);
    is_of(queue, member, 2);
    CHECK(pq_push_many(member, many, 3, PQ_FOREVER, &done, NULL) == PQ_OK && done == 3);
    is_of(queue, member, 5);
    CHECK(pq_peek(member, &item, PQ_FOREVER, NULL) == PQ_OK && pq_pop_due(member, 0, &item, PQ_FOREVER, NULL) == PQ_NOT_DUE);
    is_of(queue, member, 5);
    CHECK(pq_pop(member, &item, PQ_FOREVER, NULL) == PQ_OK && pq_take(member, &item, PQ_FOREVER, NULL) == PQ_OK && is_item(item, 3, 3));
    is_of(queue, member, 3);
    CHECK(pq_pop_due_many(member, 5, items, 3, PQ_FOREVER, &done, NULL) == PQ_OK && done == 2);
    is_of(queue, member, 1);
    CHECK(pq_shut(queue) == PQ_OK);
    is_of(queue, member, 1);
    CHECK(pq_pop(member, &item, PQ_FOREVER, &number) == PQ_OK && number == 11);
    is_of(queue, member, 0);
    pq_give_back(member);
    pq_leave(queue);
    pq_journal *journal = closed(queue);
    CHECK(pq_count(journal, NULL) == 11);
    pq_journal_free(journal);
}

/* The most items at once: pops don't lower it, and a reschedule in a full-height queue doesn't raise it. */
static void has_a_peak(void) {
    pq_options options = { 0, 0, 0, 0, 0, 0, 0 };
    pq_queue *queue = NULL;
    pq_item item;
    uint64_t ticket = 0;
    options.tickets = 1;
    CHECK(pq_open(&options, &queue) == PQ_OK && peak_of(queue) == 0);
    for (uint32_t i = 1; i <= 3; i++) {
        CHECK(pq_push(pq_own(queue), item_of(i, i), PQ_FOREVER, &ticket) == PQ_OK && peak_of(queue) == i);
    }
    CHECK(pq_reschedule(pq_own(queue), ticket, 0, PQ_FOREVER, &ticket) == PQ_OK && size_of(queue) == 3 && peak_of(queue) == 3);
    for (uint32_t i = 0; i < 2; i++) {
        CHECK(pq_pop(pq_own(queue), &item, PQ_FOREVER, NULL) == PQ_OK && peak_of(queue) == 3);
    }
    CHECK(pq_push(pq_own(queue), item_of(1, 1), PQ_FOREVER, NULL) == PQ_OK && size_of(queue) == 2 && peak_of(queue) == 3);
    CHECK(pq_shut(queue) == PQ_OK && peak_of(queue) == 3);
    close_and_free(queue);
}

int main(void) {
    follows_each_call();
    has_a_peak();
    return 0;
}
