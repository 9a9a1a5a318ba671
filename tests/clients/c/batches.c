/* Batches: of no item, of one, of as many as there is room for; one that a refusal ends in its midst says how many were done, and these
   stay done; a pop returns such a refusal at the next call. A shut ends a long batch between two of its parts. Each batch returns the number of
   its first entry, and leaves the number as it was where it has none. Batches beside other threads tests/explore tries. */
#include "../wrapped.h"

enum { MANY = 100, PART = 64, LONG = 5 * PART, NONE = 7777 };

static pq_item items[MANY], out[MANY + 1];

/* Items of three priorities, in the order in which they come out: 0 0 .. 1 1 .. 2 2, each in the order of its values. */
static void fill(void) {
    for (size_t i = 0; i < MANY; i++) {
        items[i] = item_of(i % 3, i);
    }
}

static int are_in_order(const pq_item *some, size_t count) {
    for (size_t i = 1; i < count; i++) {
        if (some[i - 1].priority > some[i].priority || (some[i - 1].priority == some[i].priority && some[i - 1].value >= some[i].value)) {
            return 0;
        }
    }
    return 1;
}

static void batches_of_each_size(void) {
    pq_queue *queue = opened(1);
    pq_member *own = pq_own(queue);
    size_t done = 9;
    CHECK(pq_push_many(own, items, 0, PQ_FOREVER, &done, NULL) == PQ_OK && done == 0);
    done = 9;
    CHECK(pq_pop_due_many(own, 9, out, MANY, PQ_FOREVER, &done, NULL) == PQ_EMPTY && done == 0);
    CHECK(pq_push_many(own, items, 1, PQ_NOW, &done, NULL) == PQ_OK && done == 1);
    out[1] = item_of(7, 8);
    CHECK(pq_pop_due_many(own, 0, out, MANY, PQ_NOW, &done, NULL) == PQ_OK && done == 1 && is_item(out[0], 0, 0) && is_item(out[1], 7, 8));
    CHECK(pq_push_many(own, items, MANY, PQ_FOREVER, &done, NULL) == PQ_OK && done == MANY);
    CHECK(pq_pop_due_many(own, 9, out, 0, PQ_FOREVER, &done, NULL) == PQ_OK && done == 0);
    CHECK(pq_pop_due_many(own, 9, out, 1, PQ_FOREVER, &done, NULL) == PQ_OK && done == 1 && is_item(out[0], 0, 0));
    CHECK(pq_pop_due_many(own, 9, out, 10, in_ms(1000), &done, NULL) == PQ_OK && done == 10 && is_item(out[9], 0, 30));
    CHECK(pq_pop_due_many(own, 1, out, MANY, PQ_FOREVER, &done, NULL) == PQ_OK && done == 23 + 33 && are_in_order(out, done));
    CHECK(pq_pop_due_many(own, 1, out, MANY, PQ_FOREVER, &done, NULL) == PQ_NOT_DUE && done == 0 && is_item(out[0], 2, 2));
    CHECK(pq_pop_due_many(own, 2, out, 33, PQ_FOREVER, &done, NULL) == PQ_OK && done == 33 && are_in_order(out, 33) && is_item(out[32], 2, 98));
    CHECK(pq_pop_due_many(own, 2, out, MANY, PQ_FOREVER, &done, NULL) == PQ_EMPTY && done == 0);
    pq_journal *journal = closed(queue);
    CHECK(pq_count(journal, NULL) == 2 * (MANY + 1));
    pq_journal_free(journal);
}

/* A batch that fills its whole room writes nothing after it. */
static void a_full_room_is_not_left(void) {
    const size_t rooms[] = { 1, 2, PART - 1, PART, PART + 1, MANY };
    pq_queue *queue = opened(1);
    size_t done = 9;
    for (size_t i = 0; i < sizeof rooms / sizeof *rooms; i++) {
        const size_t room = rooms[i];
        CHECK(pq_push_many(pq_own(queue), items, MANY, PQ_FOREVER, &done, NULL) == PQ_OK && done == MANY);
        out[room] = item_of(7, 8);
        CHECK(pq_pop_due_many(pq_own(queue), 9, out, room, PQ_FOREVER, &done, NULL) == PQ_OK && done == room && is_item(out[room], 7, 8));
        CHECK(pq_pop_due_many(pq_own(queue), 9, out, MANY, PQ_FOREVER, &done, NULL) == (room < MANY ? PQ_OK : PQ_EMPTY) && done == MANY - room);
    }
    close_and_free(queue);
}

static void a_journal_fills_in_the_midst(void) {
    pq_queue *queue = opened_as(1, PQ_FILLS, 10);
    pq_item left;
    size_t done = 9;
    uint64_t number = NONE;
    CHECK(pq_push_many(pq_own(queue), items, 7, PQ_FOREVER, &done, &number) == PQ_OK && done == 7 && number == 1);
    CHECK(pq_pop_due_many(pq_own(queue), 9, out, 2, PQ_FOREVER, &done, &number) == PQ_OK && done == 2 && number == 8);
    CHECK(pq_push_many(pq_own(queue), items, 5, PQ_FOREVER, &done, &number) == PQ_JOURNAL_FULL && done == 1 && number == 10);
    number = NONE;
    CHECK(pq_push_many(pq_own(queue), items, 5, PQ_FOREVER, &done, &number) == PQ_JOURNAL_FULL && done == 0 && number == NONE);
    CHECK(pq_push_many(pq_own(queue), items, 1, PQ_FOREVER, &done, &number) == PQ_JOURNAL_FULL && done == 0 && number == NONE);
    CHECK(pq_pop_due_many(pq_own(queue), 9, out, 5, PQ_FOREVER, &done, &number) == PQ_JOURNAL_FULL && done == 0 && number == NONE);
    pq_journal *journal = closed(queue);
    for (done = 0; pq_take_left(journal, &left) == PQ_OK; done++) {
    }
    CHECK(done == 6);
    pq_journal_free(journal);
    queue = opened_as(1, PQ_FILLS, 10);
    CHECK(pq_push_many(pq_own(queue), items, 8, PQ_FOREVER, &done, &number) == PQ_OK && number == 1);
    CHECK(pq_pop_due_many(pq_own(queue), 9, out, 5, PQ_FOREVER, &done, &number) == PQ_OK && done == 2 && are_in_order(out, 2) && number == 9);
    CHECK(pq_pop_due_many(pq_own(queue), 9, out, 5, PQ_FOREVER, &done, NULL) == PQ_JOURNAL_FULL && done == 0);
    close_and_free(queue);
}

static void a_shut_queue_refuses_a_batch(void) {
    pq_queue *queue = opened(1);
    size_t done = 9;
    uint64_t number = NONE;
    CHECK(pq_push_many(pq_own(queue), items, 5, PQ_FOREVER, &done, NULL) == PQ_OK && pq_shut(queue) == PQ_OK);
    CHECK(pq_push_many(pq_own(queue), items, 5, PQ_FOREVER, &done, &number) == PQ_SHUT && done == 0 && number == NONE);
    CHECK(pq_pop_due_many(pq_own(queue), 9, out, MANY, PQ_FOREVER, &done, NULL) == PQ_OK && done == 5);
    CHECK(pq_pop_due_many(pq_own(queue), 9, out, MANY, PQ_FOREVER, &done, NULL) == PQ_EMPTY && done == 0);
    close_and_free(queue);
}

/* A long batch that another thread pushes. */
struct long_batch {
    pq_member *member;
    pq_item items[LONG];
    size_t done;
    uint64_t number;
};

static void *push_long_batch(void *own) {
    struct long_batch *it = (struct long_batch *)own;
    wrapped_next = HOLDS_AND_STOPS;
    CHECK(pq_push_many(it->member, it->items, LONG, PQ_FOREVER, &it->done, &it->number) == PQ_SHUT && wrapped_next == HOLDS_NOTHING);
    return NULL;
}

/* The first part of a batch asks for memory, and stops there until the queue is shut: this part is the last. What the batch says it did, and
   nothing else, comes out. */
static void a_shut_ends_a_batch_after_a_part(void) {
    static struct long_batch it;
    pq_queue *queue = opened(1);
    size_t done = 0, next;
    it.member = joined(queue);
    it.done = LONG + 1;
    for (size_t i = 0; i < LONG; i++) {
        it.items[i] = item_of(1, i);
    }
    pthread_t thread = started(push_long_batch, &it);
    while (!__atomic_load_n(&wrapped_holds, __ATOMIC_ACQUIRE)) {
        sleep_ms(1);
    }
    CHECK(pq_shut(queue) == PQ_OK);
    __atomic_store_n(&wrapped_lets_go, 1, __ATOMIC_RELEASE);
    ended(thread);
    CHECK(it.done == PART && it.number == 1);
    for (next = 0; pq_pop_due_many(it.member, 1, out, MANY, PQ_FOREVER, &done, NULL) == PQ_OK; next += done) {
        for (size_t i = 0; i < done; i++) {
            CHECK(is_item(out[i], 1, next + i));
        }
    }
    CHECK(next == PART && pq_take(it.member, out, PQ_FOREVER, NULL) == PQ_SHUT);
    pq_give_back(it.member);
    close_and_free(queue);
}

static void memory_would_forget_in_the_midst(void) {
    enum { KEPT = 65536 };
    pq_queue *queue = opened_as(1, PQ_REFUSES, 0);
    pq_member *own = pq_own(queue);
    pq_journal *journal = NULL;
    size_t done = 9;
    uint64_t number = NONE;
    for (uint32_t made = 0; made + MANY <= KEPT; made += MANY) {
        CHECK(pq_push_many(own, items, MANY, PQ_FOREVER, &done, &number) == PQ_OK && number == made + 1);
    }
    CHECK(pq_push_many(own, items, MANY, PQ_FOREVER, &done, &number) == PQ_UNARCHIVED && done == KEPT % MANY && number == KEPT - done + 1);
    CHECK(pq_archive(own, 10, PQ_FOREVER, &journal) == PQ_OK);
    pq_journal_free(journal);
    CHECK(pq_pop_due_many(own, 9, out, MANY, PQ_FOREVER, &done, &number) == PQ_OK && done == 10 && is_item(out[9], 0, 27));
    CHECK(number == KEPT + 1);
    number = NONE;
    CHECK(pq_pop_due_many(own, 9, out, MANY, PQ_FOREVER, &done, &number) == PQ_UNARCHIVED && done == 0 && number == NONE);
    close_and_free(queue);
}

/* Whether these entries, of which the first has this number, are the requests for these items. */
static int are_entries(const pq_journal *journal, uint64_t number, uint32_t request, const pq_item *some, size_t count) {
    pq_entry entry;
    for (size_t i = 0; i < count; i++) {
        if (pq_read(journal, number - 1 + i, &entry) != PQ_OK || entry.number != number + i || entry.request != request ||
            entry.reply != PQ_OK || !is_item(entry.item, some[i].priority, some[i].value)) {
            return 0;
        }
    }
    return 1;
}

static void numbers_are_those_of_the_first_entries(void) {
    const size_t counts[] = { 3, 1, 2, PART, PART + 1, MANY };
    enum { COUNTS = sizeof counts / sizeof *counts };
    uint64_t pushed[COUNTS], popped[COUNTS], other = 0;
    pq_queue *queue = opened(2);
    pq_member *member = joined(queue);
    size_t done = 9;
    CHECK(pq_push(member, item_of(9, 9), PQ_FOREVER, &other) == PQ_OK);
    for (size_t i = 0; i < COUNTS; i++) {
        CHECK(pq_push_many(pq_own(queue), items, counts[i], PQ_FOREVER, &done, &pushed[i]) == PQ_OK && done == counts[i]);
        CHECK(pushed[i] == other + 1);
        CHECK(pq_push(member, item_of(9, 9), PQ_FOREVER, &other) == PQ_OK && other == pushed[i] + counts[i]);
        CHECK(pq_pop_due_many(pq_own(queue), 2, out, counts[i], PQ_FOREVER, &done, &popped[i]) == PQ_OK && done == counts[i]);
        CHECK(popped[i] == other + 1);
        CHECK(pq_push(member, item_of(9, 9), PQ_FOREVER, &other) == PQ_OK && other == popped[i] + counts[i]);
    }
    pq_give_back(member);
    pq_journal *journal = closed(queue);
    for (size_t i = 0; i < COUNTS; i++) {
        CHECK(are_entries(journal, pushed[i], PQ_PUSH, items, counts[i]));
        for (size_t entry = 0; entry < counts[i]; entry++) {
            pq_entry it;
            CHECK(pq_read(journal, popped[i] - 1 + entry, &it) == PQ_OK && it.request == PQ_POP);
            out[entry] = it.item;
        }
        CHECK(are_in_order(out, counts[i]));
    }
    pq_journal_free(journal);
}

static void a_batch_without_an_entry_has_no_number(void) {
    pq_queue *queue = opened(1);
    size_t done = 9;
    uint64_t number = NONE;
    for (size_t room = 1; room <= 2; room++) {
        CHECK(pq_pop_due_many(pq_own(queue), 9, out, room, PQ_FOREVER, &done, &number) == PQ_EMPTY && done == 0 && number == NONE);
    }
    CHECK(pq_push_many(pq_own(queue), items, 0, PQ_FOREVER, &done, &number) == PQ_OK && done == 0 && number == NONE);
    CHECK(pq_push(pq_own(queue), item_of(5, 5), PQ_FOREVER, NULL) == PQ_OK);
    for (size_t room = 0; room <= 2; room++) {
        pq_code code = pq_pop_due_many(pq_own(queue), 4, out, room, PQ_FOREVER, &done, &number);
        CHECK(code == (room > 0 ? PQ_NOT_DUE : PQ_OK) && done == 0 && number == NONE);
    }
    CHECK(pq_push_many(NULL, items, 2, PQ_FOREVER, &done, &number) == PQ_NO_MEMBER && done == 0 && number == NONE);
    CHECK(pq_pop_due_many(NULL, 9, out, 2, PQ_FOREVER, &done, &number) == PQ_NO_MEMBER && done == 0 && number == NONE);
    close_and_free(queue);
}

/* A part that was taken is all that is due. The room for the rest stays as it was. */
static void what_is_left_after_a_part_stays(void) {
    enum { AT_ONCE = 64 };
    pq_queue *queue = opened(1);
    pq_item taken[AT_ONCE + 2] = { { 1, 0 } };
    size_t done = 0;
    for (int i = 0; i <= AT_ONCE; i++) {
        CHECK(pq_push(pq_own(queue), item_of(i < AT_ONCE ? 1 : 9, 5), PQ_FOREVER, NULL) == PQ_OK);
    }
    CHECK(pq_pop_due_many(pq_own(queue), 1, taken, AT_ONCE + 2, PQ_FOREVER, &done, NULL) == PQ_OK && done == AT_ONCE);
    CHECK(is_item(taken[0], 1, 5) && is_item(taken[AT_ONCE - 1], 1, 5) && is_item(taken[AT_ONCE], 0, 0) && size_of(queue) == 1);
    close_and_free(queue);
}

/* By the million, of the greatest priority: they come out in the order in which they were pushed, after one of a smaller priority. */
static void equal_priorities_keep_their_order(void) {
    const uint64_t count = requests(1000000);
    pq_queue *queue = opened(1);
    pq_member *own = pq_own(queue);
    uint64_t next = 0;
    size_t done = 0;
    for (uint64_t i = 0; i < count; i += done) {
        for (uint64_t k = 0; k < PART; k++) {
            items[k] = item_of(UINT64_MAX, i + k);
        }
        CHECK(pq_push_many(own, items, PART, PQ_FOREVER, &done, NULL) == PQ_OK && done == PART);
    }
    CHECK(pq_pop_due(own, UINT64_MAX - 1, out, PQ_FOREVER, NULL) == PQ_NOT_DUE && pq_push(own, item_of(UINT64_MAX - 1, 7), PQ_FOREVER, NULL) == PQ_OK);
    CHECK(pq_pop(own, out, PQ_FOREVER, NULL) == PQ_OK && is_item(out[0], UINT64_MAX - 1, 7));
    while (pq_pop_due_many(own, UINT64_MAX, out, PART - 1, PQ_FOREVER, &done, NULL) == PQ_OK) {
        for (size_t i = 0; i < done; i++, next++) {
            CHECK(is_item(out[i], UINT64_MAX, next));
        }
    }
    CHECK(next >= count);
    close_and_free(queue);
}

int main(void) {
    equal_priorities_keep_their_order();
    what_is_left_after_a_part_stays();
    fill();
    batches_of_each_size();
    a_full_room_is_not_left();
    a_journal_fills_in_the_midst();
    a_shut_queue_refuses_a_batch();
    a_shut_ends_a_batch_after_a_part();
    memory_would_forget_in_the_midst();
    numbers_are_those_of_the_first_entries();
    a_batch_without_an_entry_has_no_number();
    return 0;
}
