/* One thread makes each request once, and the journal has it, but no peek. The common words of C99 and C++11, so that each compiler takes this file as
   both. */
#include "../check.h"

#include <string.h>

static void reads(const pq_journal *journal, size_t index, uint32_t request, uint32_t reply, pq_item item) {
    pq_entry entry;
    CHECK(pq_read(journal, index, &entry) == PQ_OK && entry.number == index + 1 && entry.serial == index + 1);
    CHECK(entry.request == request && entry.reply == reply && is_item(entry.item, item.priority, item.value));
}

int main(void) {
    pq_queue *queue = opened(1);
    pq_member *own = pq_own(queue);
    pq_item none = item_of(0, 0), late = item_of(UINT64_MAX, 1), soon = item_of(5, UINT64_MAX), item = none;
    uint64_t number = 0;
    char text[PQ_TEXT_ROOM];
    pq_entry entry;
    CHECK(pq_pop(own, &item, PQ_FOREVER, &number) == PQ_EMPTY && number == 1);
    CHECK(pq_push(own, late, PQ_FOREVER, &number) == PQ_OK && number == 2);
    CHECK(pq_push(own, soon, PQ_NOW, NULL) == PQ_OK);
    CHECK(pq_peek(own, &item, pq_after(1000000000), &number) == PQ_OK && number == 3 && is_item(item, 5, UINT64_MAX));
    CHECK(pq_pop(own, &item, PQ_FOREVER, &number) == PQ_OK && number == 4 && is_item(item, 5, UINT64_MAX));
    pq_journal *journal = closed(queue);
    CHECK(pq_count(journal, NULL) == 4);
    reads(journal, 0, PQ_POP, PQ_EMPTY, none);
    reads(journal, 1, PQ_PUSH, PQ_OK, late);
    reads(journal, 2, PQ_PUSH, PQ_OK, soon);
    reads(journal, 3, PQ_POP, PQ_OK, soon);
    CHECK(pq_read(journal, 0, &entry) == PQ_OK && pq_text(&entry, text) == 25 && strcmp(text, "1 0 1 pop empty acff473d\n") == 0);
    CHECK(pq_take_left(journal, &item) == PQ_OK && is_item(item, UINT64_MAX, 1) && pq_take_left(journal, &item) == PQ_EMPTY);
    pq_journal_free(journal);
    CHECK(strcmp(pq_code_text(PQ_EMPTY), pq_code_text(PQ_OK)) != 0);
    return 0;
}
