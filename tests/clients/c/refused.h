/* What clients check of calls that are refused. */
#ifndef REFUSED_H
#define REFUSED_H

#include "../check.h"

static inline void notes_nothing(void *context) {
    (void)context;
}

/* Each call that makes a request is refused so, and leaves what its caller passed as it was. */
static inline void refuses_requests(pq_member *member, pq_code code, uint64_t until) {
    const pq_item pushed[2] = { { 1, 2 }, { 3, 4 } };
    pq_item item = item_of(7, 8), items[2] = { { 7, 8 }, { 7, 8 } };
    uint64_t number = 9;
    size_t done = 9;
    CHECK(pq_push(member, item, until, &number) == code && pq_push(member, item, until, NULL) == code);
    CHECK(pq_pop(member, &item, until, &number) == code && pq_pop(member, &item, until, NULL) == code);
    CHECK(pq_pop_due(member, 9, &item, until, &number) == code);
    CHECK(pq_take(member, &item, until, &number) == code && pq_take_due(member, &item, until, &number) == code);
    CHECK(pq_push_many(member, pushed, 2, until, &done, NULL) == code && done == 0);
    done = 9;
    CHECK(pq_pop_due_many(member, 9, items, 2, until, &done, NULL) == code && done == 0);
    CHECK(is_item(item, 7, 8) && is_item(items[0], 7, 8) && is_item(items[1], 7, 8) && number == 9);
}

/* So are calls that listen. */
static inline void refuses_listening(pq_member *member, pq_code code) {
    pq_item item = item_of(7, 8);
    uint64_t number = 9;
    CHECK(pq_push_or_listen(member, item, &number, notes_nothing, NULL) == code && pq_unlisten(member) == 0);
    CHECK(pq_take_or_listen(member, 9, &item, &number, notes_nothing, NULL) == code && pq_unlisten(member) == 0);
    CHECK(pq_take_due_or_listen(member, -1, &item, &number) == code && pq_unlisten(member) == 0);
    CHECK(is_item(item, 7, 8) && number == 9);
}

/* And calls that make no request. */
static inline void refuses_others(pq_member *member, pq_code code, uint64_t until) {
    pq_item item = item_of(7, 8);
    uint64_t size = 9, peak = 9, entries = 9;
    pq_journal *journal = NULL;
    CHECK(pq_archive(member, 0, until, &journal) == code && journal == NULL);
    CHECK(pq_size(member, until, &size, &peak) == code && size == 9 && peak == 9);
    CHECK(pq_peek(member, &item, until, &entries) == code && is_item(item, 7, 8) && entries == 9);
}

static inline void refuses_all(pq_member *member, pq_code code, uint64_t until) {
    refuses_requests(member, code, until);
    refuses_listening(member, code);
    refuses_others(member, code, until);
}

#endif
