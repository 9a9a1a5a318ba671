/* Removals and moves by ticket: the first item, one in the middle and the last one go out, or elsewhere; a ticket that is gone, was never there or
   is that of another entry returns PQ_GONE and has an entry; a queue without tickets refuses; a removal makes room in a queue with a bound, and a
   move does not; and a journal with both is read back. Where there is an argument, a journal is written out. Whom a move wakes tests/explore
   tries; linearizable.c has both in threads. */
#include "../wrapped.h"

#include <malloc.h>
#include <string.h>
#include <sys/mman.h>

static pq_queue *opened_with_tickets(uint32_t keeping, uint32_t entries, uint64_t most_items) {
    const pq_options options = { 0, keeping, entries, 1, 0, 0, most_items };
    pq_queue *queue = NULL;
    CHECK(pq_open(&options, &queue) == PQ_OK && queue != NULL);
    return queue;
}

static uint64_t pushed(pq_queue *queue, uint64_t priority, uint64_t value) {
    uint64_t ticket = 0;
    CHECK(pq_push(pq_own(queue), item_of(priority, value), PQ_FOREVER, &ticket) == PQ_OK);
    return ticket;
}

static void is_gone(pq_queue *queue, uint64_t ticket) {
    pq_item item = item_of(8, 9);
    uint64_t number = 0, next = 0, size = size_of(queue);
    CHECK(pq_remove(pq_own(queue), ticket, &item, PQ_FOREVER, &number) == PQ_GONE && number > 0 && is_item(item, 8, 9));
    CHECK(pq_reschedule(pq_own(queue), ticket, 0, PQ_FOREVER, &next) == PQ_GONE && next == number + 1 && size_of(queue) == size);
}

static void removes(pq_queue *queue, uint64_t ticket, uint64_t priority, uint64_t value) {
    pq_item item;
    uint64_t number = 0, size = size_of(queue);
    CHECK(pq_remove(pq_own(queue), ticket, &item, PQ_FOREVER, &number) == PQ_OK && number > ticket && is_item(item, priority, value));
    CHECK(size_of(queue) == size - 1);
    is_gone(queue, ticket);
}

/* Moves an item: its ticket from now on. */
static uint64_t moved(pq_queue *queue, uint64_t ticket, uint64_t priority) {
    uint64_t number = 0, size = size_of(queue);
    CHECK(pq_reschedule(pq_own(queue), ticket, priority, PQ_FOREVER, &number) == PQ_OK && number > ticket && size_of(queue) == size);
    is_gone(queue, ticket);
    return number;
}

static void pops(pq_queue *queue, uint64_t priority, uint64_t value) {
    pq_item item;
    CHECK(pq_pop(pq_own(queue), &item, PQ_FOREVER, NULL) == PQ_OK && is_item(item, priority, value));
}

static void any_item_goes_out(uint32_t keeping, uint32_t entries) {
    pq_queue *queue = opened_with_tickets(keeping, entries, 0);
    uint64_t tickets[8], popped;
    pq_item item;
    for (uint64_t i = 0; i < 8; i++) {
        tickets[i] = pushed(queue, i % 4, i);
    }
    removes(queue, tickets[0], 0, 0); /* the first, one of equal ones, and the last */
    removes(queue, tickets[5], 1, 5);
    removes(queue, tickets[7], 3, 7);
    CHECK(pq_pop(pq_own(queue), &item, PQ_FOREVER, &popped) == PQ_OK && is_item(item, 0, 4));
    is_gone(queue, tickets[4]);
    is_gone(queue, popped);
    is_gone(queue, 0);
    is_gone(queue, 1000000000);
    is_gone(queue, UINT64_MAX);
    removes(queue, pushed(queue, 2, 8), 2, 8);
    pops(queue, 1, 1);
    pops(queue, 2, 2);
    pops(queue, 2, 6);
    pops(queue, 3, 3);
    is_gone(queue, tickets[3]);
    CHECK(pq_remove(pq_own(queue), tickets[3], &item, PQ_NOW, NULL) == PQ_GONE && pq_pop(pq_own(queue), &item, PQ_NOW, NULL) == PQ_EMPTY);
    tickets[0] = pushed(queue, 4, 9);
    CHECK(pq_remove(pq_own(queue), tickets[0], NULL, PQ_NOW, NULL) == PQ_OK && size_of(queue) == 0);
    CHECK(pq_remove(pq_own(queue), tickets[0], NULL, PQ_NOW, NULL) == PQ_GONE);
    close_and_free(queue);
}

static void an_item_goes_after_its_equals(uint32_t keeping, uint32_t entries) {
    pq_queue *queue = opened_with_tickets(keeping, entries, 0);
    uint64_t first = pushed(queue, 5, 1), second = pushed(queue, 5, 2), third = pushed(queue, 3, 3), last = pushed(queue, 9, 4), fifth;
    first = moved(queue, first, 5);
    last = moved(queue, moved(queue, last, 3), 0);
    third = moved(queue, third, UINT64_MAX);
    fifth = pushed(queue, UINT64_MAX, 5);
    pops(queue, 0, 4);
    pops(queue, 5, 2);
    is_gone(queue, last);
    is_gone(queue, second);
    first = moved(queue, first, UINT64_MAX);
    removes(queue, third, UINT64_MAX, 3);
    CHECK(fifth < first);
    pops(queue, UINT64_MAX, 5);
    pops(queue, UINT64_MAX, 1);
    CHECK(pq_reschedule(pq_own(queue), first, 1, PQ_NOW, NULL) == PQ_GONE && size_of(queue) == 0);
    close_and_free(queue);
}

/* Both calls are refused so, and leave what their caller passed as it was. */
static void refuses(pq_member *member, pq_code code, uint64_t until) {
    pq_item item = item_of(7, 8);
    uint64_t number = 9;
    CHECK(pq_remove(member, 1, &item, until, &number) == code && pq_reschedule(member, 1, 2, until, &number) == code);
    CHECK(is_item(item, 7, 8) && number == 9);
}

static void others_refuse(void) {
    pq_options options = { 0, 0, 0, 2, 0, 0, 0 };
    pq_queue *queue = opened(2), *other;
    pq_journal *journal;
    pq_item item;
    CHECK(pq_push(pq_own(queue), item_of(1, 2), PQ_FOREVER, NULL) == PQ_OK);
    refuses(pq_own(queue), PQ_NO_TICKETS, PQ_FOREVER);
    refuses(NULL, PQ_NO_MEMBER, PQ_NOW);
    close_and_free(queue);
    CHECK(pq_open(&options, &other) == PQ_BAD_OPTION && other == NULL);
    queue = opened_with_tickets(PQ_FILLS, 3, 0);
    CHECK(pushed(queue, 1, 2) == 1);
    is_gone(queue, 9);
    refuses(pq_own(queue), PQ_JOURNAL_FULL, PQ_FOREVER);
    CHECK(size_of(queue) == 1 && pq_close(queue, &journal) == PQ_OK);
    CHECK(pq_take_left(journal, &item) == PQ_OK && is_item(item, 1, 2) && pq_take_left(journal, &item) == PQ_EMPTY);
    refuses(pq_own(queue), PQ_CLOSED, PQ_FOREVER);
    pq_free(queue, NULL, NULL);
    pq_journal_free(journal);
    CHECK(pq_code_text(PQ_GONE)[0] != 0 && pq_code_text(PQ_NO_TICKETS)[0] != 0);
}

/* Where another thread has the lock; and where an entry would be forgotten that is not archived. */
static void refuses_for_now(void) {
    pq_queue *queue = opened_with_tickets(PQ_REFUSES, 0, 0);
    pq_member *member = joined(queue);
    holder other;
    CHECK(pushed(queue, 1, 2) == 1);
    hold(&other, queue, HOLDS_AND_STOPS);
    refuses(member, PQ_TIMED_OUT, PQ_NOW);
    refuses(member, PQ_TIMED_OUT, in_ms(5));
    let_go(&other);
    while (pq_remove(member, UINT64_MAX, NULL, PQ_FOREVER, NULL) == PQ_GONE) {
    }
    refuses(member, PQ_UNARCHIVED, PQ_FOREVER);
    CHECK(size_of(queue) == 1 + other.pushed);
    pq_give_back(member);
    close_and_free(queue);
}

/* A move makes no room, and a queue that is shut lets both through. */
static void only_a_removal_makes_room(void) {
    pq_queue *queue = opened_with_tickets(PQ_FORGETS, 0, 1);
    uint64_t ticket = moved(queue, pushed(queue, 5, 6), 4);
    CHECK(pq_push(pq_own(queue), item_of(7, 8), PQ_NOW, NULL) == PQ_FULL);
    removes(queue, ticket, 4, 6);
    ticket = pushed(queue, 7, 8);
    CHECK(pq_shut(queue) == PQ_OK && pq_push(pq_own(queue), item_of(1, 1), PQ_FOREVER, NULL) == PQ_SHUT);
    removes(queue, moved(queue, ticket, 9), 9, 8);
    close_and_free(queue);
}

static uint64_t moved_to(pq_queue *queue, uint64_t ticket, uint64_t time) {
    CHECK(pq_reschedule(pq_own(queue), ticket, time, PQ_FOREVER, &ticket) == PQ_OK);
    return ticket;
}

static void takes_no_more_memory(void) {
    pq_queue *queue = opened_with_tickets(PQ_FORGETS, 0, 0);
    size_t before = 0;
    pushed(queue, 1000, 0); /* stays */
    for (uint32_t i = 0; i < requests(300000); i++) {
        pq_item item;
        const uint64_t ticket = moved_to(queue, pushed(queue, 7, i), i % 1000);
        CHECK(pq_remove(pq_own(queue), ticket, &item, PQ_FOREVER, NULL) == PQ_OK && is_item(item, i % 1000, i));
        if (i == 1000) {
            before = mallinfo2().uordblks;
        }
    }
    CHECK(before == 0 || mallinfo2().uordblks < before + 200000);
    close_and_free(queue);
}

/* The journal has this text at the index. */
static pq_entry entry_at(const pq_journal *journal, size_t index, const char *wanted) {
    pq_entry entry;
    char text[PQ_TEXT_ROOM];
    CHECK(pq_read(journal, index, &entry) == PQ_OK && pq_text(&entry, text) == strlen(text) && strcmp(text, wanted) == 0);
    return entry;
}

static void has_entries(const pq_journal *journal) {
    pq_entry entry = entry_at(journal, 2, "3 0 3 remove 1 got 5 1 6a4cf9d9\n");
    CHECK(entry.request == PQ_REMOVE && entry.ticket == 1 && entry.priority == 0 && entry.reply == PQ_OK && is_item(entry.item, 5, 1));
    entry = entry_at(journal, 3, "4 0 4 remove 1 empty 099ab2e0\n");
    CHECK(entry.reply == PQ_EMPTY && entry.ticket == 1);
    entry = entry_at(journal, 4, "5 0 5 move 1 0 empty 2f44b382\n");
    CHECK(entry.request == PQ_RESCHEDULE && entry.ticket == 1 && entry.priority == 0 && entry.reply == PQ_EMPTY);
    entry = entry_at(journal, 5, "6 0 6 move 2 18446744073709551615 got 6 2 d13ee84a\n");
    CHECK(entry.request == PQ_RESCHEDULE && entry.ticket == 2 && entry.priority == UINT64_MAX && entry.reply == PQ_OK && is_item(entry.item, 6, 2));
    CHECK(pq_count(journal, NULL) == 6);
}

static void is_read_back(int is_written) {
    pq_queue *queue = opened_with_tickets(PQ_FILLS, 100, 0);
    const int file = memfd_create("journal", 0);
    pq_journal *archive, *journal, *read;
    pq_item item;
    uint64_t line, ticket = pushed(queue, 5, 1), other = pushed(queue, 6, 2);
    removes(queue, ticket, 5, 1); /* and by the same ticket once more, and a move */
    moved_to(queue, other, UINT64_MAX);
    CHECK(pq_archive(pq_own(queue), 0, PQ_FOREVER, &archive) == PQ_OK);
    journal = closed(queue);
    has_entries(archive);
    has_entries(journal);
    CHECK(!is_written || pq_write(journal, STDOUT_FILENO) == PQ_OK);
    CHECK(pq_write(journal, file) == PQ_OK && lseek(file, 0, SEEK_SET) == 0);
    CHECK(pq_journal_read(file, &read, &line, NULL) == PQ_OK && line == 6 && close(file) == 0);
    has_entries(read);
    CHECK(pq_take_left(read, &item) == PQ_OK && is_item(item, UINT64_MAX, 2) && pq_take_left(read, &item) == PQ_EMPTY);
    pq_journal_free(read);
    pq_journal_free(archive);
    pq_journal_free(journal);
}

/* A line that has a move of an item with another reply, or with none. */
static void is_not_lawful(const char *text) {
    const int file = memfd_create("journal", 0);
    pq_journal *read;
    uint64_t line = 0;
    CHECK(write(file, text, strlen(text)) == (ssize_t)strlen(text) && lseek(file, 0, SEEK_SET) == 0);
    CHECK(pq_journal_read(file, &read, &line, NULL) == PQ_NOT_LAWFUL && line == 2 && read == NULL && close(file) == 0);
}

int main(int count, char **words) {
    (void)words;
    any_item_goes_out(PQ_FORGETS, 0);
    any_item_goes_out(PQ_FILLS, 100);
    an_item_goes_after_its_equals(PQ_FORGETS, 0);
    an_item_goes_after_its_equals(PQ_FILLS, 100);
    others_refuse();
    refuses_for_now();
    only_a_removal_makes_room();
    takes_no_more_memory();
    is_read_back(count > 1);
    is_not_lawful("1 0 1 push 5 1 pushed\n2 0 2 move 1 3 empty\n");
    is_not_lawful("1 0 1 push 5 1 pushed\n2 0 2 move 1 3 got 3 1\n");
    is_not_lawful("1 0 1 push 5 1 pushed\n2 0 2 move 2 3 got 5 1\n");
    return 0;
}
