/* A journal with each request but a peek, and each reply, and numbers up to 2^64 - 1, is read, and written as text; a write that fails says so;
   items that are left come out in their order, while the entries stay; and a text with a shut is read back, and one with peeks. */
#include "../check.h"

#include <fcntl.h>
#include <stdio.h>
#include <string.h>
#include <unistd.h>

#define UPPER 4294967296u

enum { ITEMS = 5 };

static const pq_item pushed[ITEMS] = { { UPPER, 1 }, { UINT64_MAX, UINT64_MAX }, { UPPER, 0 }, { 0, 10000000000000000000u }, { 1, UPPER - 1 } };

/* One member makes each request once with an item, and once without. A peek has no entry. */
static pq_journal *whole_journal(void) {
    pq_queue *queue = opened(5);
    pq_member *member = joined(queue);
    pq_item item = item_of(7, 8);
    uint64_t entries = 9;
    CHECK(pq_peek(member, &item, PQ_FOREVER, &entries) == PQ_EMPTY && entries == 0 && pq_pop(member, &item, PQ_FOREVER, NULL) == PQ_EMPTY);
    CHECK(pq_peek(member, &item, PQ_FOREVER, &entries) == PQ_EMPTY && entries == 1 && is_item(item, 7, 8));
    for (size_t i = 0; i < ITEMS; i++) {
        CHECK(pq_push(member, pushed[i], PQ_FOREVER, NULL) == PQ_OK);
    }
    CHECK(pq_peek(member, &item, PQ_FOREVER, &entries) == PQ_OK && entries == 6 && is_item(item, 0, 10000000000000000000u));
    for (size_t i = 0; i < ITEMS; i++) {
        CHECK(pq_pop(member, &item, PQ_FOREVER, NULL) == PQ_OK);
    }
    CHECK(pq_pop(member, &item, PQ_FOREVER, NULL) == PQ_EMPTY);
    pq_give_back(member);
    return closed(queue);
}

static void reads(const pq_journal *journal, size_t index, uint32_t request, pq_code reply, pq_item item) {
    pq_entry entry;
    memset(&entry, 9, sizeof entry);
    CHECK(pq_read(journal, index, &entry) == PQ_OK && entry.number == index + 1 && entry.serial == index + 1 && entry.place == 0);
    CHECK(entry.request == request && entry.reply == (uint32_t)reply && is_item(entry.item, item.priority, item.value));
}

static void has_entries(const pq_journal *journal) {
    const size_t order[ITEMS] = { 3, 4, 0, 2, 1 };
    const pq_item none = { 0, 0 };
    pq_entry entry;
    CHECK(pq_count(journal, NULL) == 12);
    reads(journal, 0, PQ_POP, PQ_EMPTY, none);
    for (size_t i = 0; i < ITEMS; i++) {
        reads(journal, 1 + i, PQ_PUSH, PQ_OK, pushed[i]);
        reads(journal, 6 + i, PQ_POP, PQ_OK, pushed[order[i]]);
    }
    reads(journal, 11, PQ_POP, PQ_EMPTY, none);
    memset(&entry, 9, sizeof entry);
    CHECK(pq_read(journal, 12, &entry) == PQ_NO_ENTRY && pq_read(journal, SIZE_MAX, &entry) == PQ_NO_ENTRY && entry.place == 0x09090909);
}

static void is_text(const pq_entry *entry, const char *wanted) {
    char text[PQ_TEXT_ROOM];
    memset(text, 'x', sizeof text);
    CHECK(pq_text(entry, text) == strlen(wanted) && strcmp(text, wanted) == 0);
}

/* A member may make 2^56 requests, and a journal may have as many entries: more digits than these there are not. */
static void has_text(void) {
    const pq_entry move = { UINT64_MAX, UINT64_MAX, 2079, PQ_RESCHEDULE, PQ_OK, 0, { UINT64_MAX, UINT64_MAX }, UINT64_MAX, UINT64_MAX };
    pq_entry entry = { 7, 2, 3, PQ_PUSH, PQ_OK, 0, { 5, 1 }, 4, 6 };
    is_text(&move, "18446744073709551615 2079 18446744073709551615 move 18446744073709551615 18446744073709551615 got 18446744073709551615 "
                   "18446744073709551615 59b20626\n");
    is_text(&entry, "7 3 2 push 5 1 pushed 4ebb24e7\n");
    entry.request = PQ_REMOVE;
    is_text(&entry, "7 3 2 remove 4 got 5 1 63ab3b6f\n");
    entry.request = PQ_RESCHEDULE;
    is_text(&entry, "7 3 2 move 4 6 got 5 1 bda4aecb\n");
    entry.request = PQ_SHUTS;
    is_text(&entry, "7 3 2 shut b6f0d719\n");
    entry.request = PQ_POP;
    is_text(&entry, "7 3 2 pop got 5 1 d637d109\n");
    entry.request = PQ_PEEK;
    is_text(&entry, "7 3 2 least least 5 1 2e4aa542\n");
    entry.reply = PQ_EMPTY;
    is_text(&entry, "7 3 2 least empty 59b86d82\n");
    entry.request = PQ_POP;
    is_text(&entry, "7 3 2 pop empty 153d19d7\n");
}

static void is_not_written(const pq_journal *journal) {
    int full = open("/dev/full", O_WRONLY);
    CHECK(full >= 0 && pq_write(journal, full) == PQ_NOT_WRITTEN && close(full) == 0);
    CHECK(pq_write(journal, full) == PQ_NOT_WRITTEN && pq_write(journal, -1) == PQ_NOT_WRITTEN);
}

static pq_code read_text(const char *text, pq_journal **journal) {
    FILE *made = tmpfile();
    pq_code code;
    CHECK(made != NULL && fputs(text, made) >= 0 && fseek(made, 0, SEEK_SET) == 0);
    code = pq_journal_read(fileno(made), journal, NULL, NULL);
    CHECK(fclose(made) == 0);
    return code;
}

/* After a shut the journal has no push. */
static void shut_is_read_back(void) {
    static const char *const lines[] = { "1 0 1 push 5 7 pushed fd6f9793\n", "2 0 2 shut 858f5e52\n", "3 0 3 pop got 5 7 12a80e0a\n" };
    const pq_item none = { 0, 0 };
    pq_journal *journal;
    char text[sizeof lines / sizeof *lines * PQ_TEXT_ROOM] = "";
    pq_entry entry;
    for (size_t i = 0; i < sizeof lines / sizeof *lines; i++) {
        strcat(text, lines[i]);
    }
    CHECK(read_text(text, &journal) == PQ_OK && pq_count(journal, NULL) == 3);
    reads(journal, 1, PQ_SHUTS, PQ_EMPTY, none);
    for (size_t i = 0; i < sizeof lines / sizeof *lines; i++) {
        CHECK(pq_read(journal, i, &entry) == PQ_OK && entry.ticket == 0 && entry.priority == 0);
        is_text(&entry, lines[i]);
    }
    pq_journal_free(journal);
    CHECK(read_text("1 0 1 shut\n2 0 2 push 5 7 pushed\n", &journal) == PQ_NOT_LAWFUL && journal == NULL);
    CHECK(read_text("1 0 1 shut\n2 0 2 shut\n", &journal) == PQ_NOT_LAWFUL && read_text("1 0 1 shut empty\n", &journal) == PQ_NOT_LAWFUL);
}

/* A journal of an earlier version, or of a program in Rattle, has entries of peeks. */
static void peeks_are_read_back(void) {
    const pq_item none = { 0, 0 };
    pq_journal *journal;
    CHECK(read_text("1 0 1 least empty\n2 0 2 push 5 1 pushed\n3 0 3 least least 5 1\n", &journal) == PQ_OK && pq_count(journal, NULL) == 3);
    reads(journal, 0, PQ_PEEK, PQ_EMPTY, none);
    reads(journal, 2, PQ_PEEK, PQ_OK, item_of(5, 1));
    pq_journal_free(journal);
    CHECK(read_text("1 0 1 push 5 1 pushed\n2 0 2 least empty\n", &journal) == PQ_NOT_LAWFUL && journal == NULL);
}

/* What is left is counted by nobody: taking it changes no entry. */
static void items_are_left(void) {
    pq_queue *queue = opened(1);
    pq_item item = item_of(7, 8);
    for (size_t i = 0; i < ITEMS; i++) {
        CHECK(pq_push(pq_own(queue), pushed[i], PQ_FOREVER, NULL) == PQ_OK);
    }
    pq_journal *journal = closed(queue);
    CHECK(pq_take_left(journal, &item) == PQ_OK && is_item(item, 0, 10000000000000000000u));
    CHECK(pq_take_left(journal, &item) == PQ_OK && is_item(item, 1, UPPER - 1) && pq_count(journal, NULL) == ITEMS);
    CHECK(pq_take_left(journal, &item) == PQ_OK && is_item(item, UPPER, 1));
    CHECK(pq_take_left(journal, &item) == PQ_OK && is_item(item, UPPER, 0));
    CHECK(pq_take_left(journal, &item) == PQ_OK && is_item(item, UINT64_MAX, UINT64_MAX));
    CHECK(pq_take_left(journal, &item) == PQ_EMPTY && is_item(item, UINT64_MAX, UINT64_MAX) && pq_count(journal, NULL) == ITEMS);
    pq_journal_free(journal);
}

int main(void) {
    pq_journal *journal = whole_journal();
    pq_item item = item_of(7, 8);
    has_entries(journal);
    has_text();
    is_not_written(journal);
    items_are_left();
    shut_is_read_back();
    peeks_are_read_back();
    CHECK(pq_take_left(journal, &item) == PQ_EMPTY && is_item(item, 7, 8));
    CHECK(pq_write(journal, STDOUT_FILENO) == PQ_OK);
    pq_journal_free(journal);
    return 0;
}
