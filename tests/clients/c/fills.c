/* A journal that fills stays full, and no entry has what was refused: each call says so whatever the first item is. A member of such a
   queue makes 16777215 requests, refused ones among them, and no more; others go on. */
#include "refused.h"

static void stays_full(uint32_t entries, int has_item) {
    pq_queue *queue = opened_as(2, PQ_FILLS, entries);
    pq_member *member = joined(queue), *other = joined(queue);
    pq_item item = item_of(7, 8);
    pq_entry entry;
    uint64_t number = 0;
    for (uint32_t i = 1; i < entries; i++) {
        CHECK(pq_push(member, item_of(entries - i, i), PQ_FOREVER, &number) == PQ_OK && number == i);
    }
    CHECK((has_item ? pq_push(member, item_of(0, 0), PQ_FOREVER, NULL) : pq_pop(member, &item, PQ_FOREVER, NULL)) == PQ_OK || entries == 1);
    item = item_of(7, 8);
    for (int i = 0; i < 3; i++) {
        refuses_requests(i % 2 == 0 ? member : other, PQ_JOURNAL_FULL, i == 2 ? PQ_NOW : PQ_FOREVER);
        CHECK(pq_take_or_listen(member, 0, &item, NULL, notes_nothing, NULL) == PQ_JOURNAL_FULL && pq_unlisten(member) == 0);
        CHECK(pq_take_due_or_listen(member, -1, &item, NULL) == PQ_JOURNAL_FULL && pq_unlisten(member) == 0);
    }
    CHECK(is_item(item, 7, 8));
    CHECK(pq_peek(member, &item, PQ_FOREVER, &number) == (has_item ? PQ_OK : PQ_EMPTY) && number == entries && item.value == (has_item ? 0 : 8));
    pq_give_back(member);
    pq_give_back(other);
    pq_journal *journal = closed(queue);
    CHECK(pq_count(journal, NULL) == entries && pq_read(journal, entries - 1, &entry) == PQ_OK);
    CHECK(pq_read(journal, entries, &entry) == PQ_NO_ENTRY && pq_take_left(journal, &item) == (has_item ? PQ_OK : PQ_EMPTY));
    pq_journal_free(journal);
}

/* All of it is archived: such a journal forgets nothing. */
static void is_archived(void) {
    pq_queue *queue = opened_as(2, PQ_FILLS, 3);
    pq_member *member = joined(queue), *other = joined(queue);
    pq_journal *journal = NULL;
    pq_item item;
    uint64_t before = 9, number = 0;
    CHECK(pq_push(member, item_of(1, 2), PQ_FOREVER, NULL) == PQ_OK && pq_pop(member, &item, PQ_FOREVER, NULL) == PQ_OK);
    CHECK(pq_archive(other, 1, PQ_FOREVER, &journal) == PQ_OK && pq_count(journal, &before) == 1 && before == 1);
    pq_journal_free(journal);
    CHECK(pq_pop(member, &item, PQ_FOREVER, &number) == PQ_EMPTY && number == 3);
    CHECK(pq_archive(other, 0, PQ_NOW, &journal) == PQ_OK && pq_count(journal, &before) == 3 && before == 0);
    pq_journal_free(journal);
    pq_give_back(member);
    pq_give_back(other);
    close_and_free(queue);
}

static void a_member_makes_so_many_requests(void) {
    const uint32_t most = 16777215;
    pq_queue *queue = opened_as(2, PQ_FILLS, 2);
    pq_member *member = joined(queue), *other = joined(queue);
    pq_item item = item_of(7, 8);
    uint64_t number = 9;
    CHECK(pq_pop(member, &item, PQ_FOREVER, &number) == PQ_EMPTY && number == 1);
    CHECK(pq_pop(member, &item, PQ_FOREVER, &number) == PQ_EMPTY && number == 2);
    for (uint32_t serial = 3; serial <= most; serial++) {
        CHECK(pq_pop(member, &item, PQ_FOREVER, NULL) == PQ_JOURNAL_FULL);
    }
    refuses_requests(member, PQ_EXHAUSTED, PQ_FOREVER);
    refuses_requests(member, PQ_EXHAUSTED, PQ_NOW);
    refuses_listening(member, PQ_EXHAUSTED);
    CHECK(pq_peek(member, &item, PQ_FOREVER, NULL) == PQ_EMPTY && pq_peek(member, &item, PQ_NOW, &number) == PQ_EMPTY && number == 2);
    CHECK(pq_pop(other, &item, PQ_FOREVER, NULL) == PQ_JOURNAL_FULL);
    pq_give_back(member);
    pq_give_back(other);
    close_and_free(queue);
}

int main(void) {
    stays_full(1, 0);
    stays_full(2, 0);
    stays_full(4, 1);
    is_archived();
    a_member_makes_so_many_requests();
    return 0;
}
