/* Each call, constant and field of the header has its type, in C99 and with no header before it; each code has a text; and the version of the
   library is the header's. */
#include "flatpq.h"

#include "../check.h"

#include <string.h>

/* Counts the calls of the header, each of which has this type. */
static int calls;
#define HAS(returns, name, arguments)      \
    do {                                   \
        returns(*const call) arguments = name; \
        calls += call != NULL;             \
    } while (0)

typedef void notify(void *context);

static void has_requests(void) {
    HAS(pq_code, pq_push, (pq_member *, pq_item, uint64_t, uint64_t *));
    HAS(pq_code, pq_pop, (pq_member *, pq_item *, uint64_t, uint64_t *));
    HAS(pq_code, pq_peek, (pq_member *, pq_item *, uint64_t, uint64_t *));
    HAS(pq_code, pq_pop_due, (pq_member *, uint64_t, pq_item *, uint64_t, uint64_t *));
    HAS(pq_code, pq_take, (pq_member *, pq_item *, uint64_t, uint64_t *));
    HAS(pq_code, pq_take_due, (pq_member *, pq_item *, uint64_t, uint64_t *));
    HAS(pq_code, pq_push_many, (pq_member *, const pq_item *, size_t, uint64_t, size_t *, uint64_t *));
    HAS(pq_code, pq_pop_due_many, (pq_member *, uint64_t, pq_item *, size_t, uint64_t, size_t *, uint64_t *));
    HAS(pq_code, pq_remove, (pq_member *, uint64_t, pq_item *, uint64_t, uint64_t *));
    HAS(pq_code, pq_reschedule, (pq_member *, uint64_t, uint64_t, uint64_t, uint64_t *));
    HAS(pq_code, pq_size, (pq_member *, uint64_t, uint64_t *, uint64_t *));
    HAS(pq_code, pq_take_or_listen, (pq_member *, uint64_t, pq_item *, uint64_t *, notify *, void *));
    HAS(pq_code, pq_take_due_or_listen, (pq_member *, int, pq_item *, uint64_t *));
    HAS(pq_code, pq_push_or_listen, (pq_member *, pq_item, uint64_t *, notify *, void *));
    HAS(int, pq_unlisten, (pq_member *));
    HAS(void, pq_notify_fd, (void *));
}

static void has_other_calls(void) {
    HAS(const char *, pq_code_text, (uint32_t));
    HAS(uint32_t, pq_version, (void));
    HAS(uint64_t, pq_now, (void));
    HAS(uint64_t, pq_after, (uint64_t));
    HAS(pq_code, pq_open, (const pq_options *, pq_queue **));
    HAS(pq_code, pq_shut, (pq_queue *));
    HAS(int, pq_is_shut, (pq_queue *));
    HAS(pq_code, pq_close, (pq_queue *, pq_journal **));
    HAS(void, pq_free, (pq_queue *, void (*)(void *, pq_item), void *));
    HAS(pq_member *, pq_own, (pq_queue *));
    HAS(void, pq_leave, (pq_queue *));
    HAS(pq_code, pq_join, (pq_queue *, uint64_t, pq_member **));
    HAS(void, pq_give_back, (pq_member *));
    HAS(uint32_t, pq_place, (pq_member *));
    HAS(pq_code, pq_archive, (pq_member *, uint64_t, uint64_t, pq_journal **));
    HAS(pq_code, pq_wait_archived, (pq_queue *, uint64_t, uint64_t));
    HAS(pq_code, pq_journal_read, (int, pq_journal **, uint64_t *, uint64_t *));
    HAS(size_t, pq_count, (const pq_journal *, uint64_t *));
    HAS(pq_code, pq_read, (const pq_journal *, size_t, pq_entry *));
    HAS(size_t, pq_text, (const pq_entry *, char *));
    HAS(pq_code, pq_write, (const pq_journal *, int));
    HAS(pq_code, pq_take_left, (pq_journal *, pq_item *));
    HAS(void, pq_journal_free, (pq_journal *));
}

static void has_constants(void) {
    const pq_options options = { 1, PQ_FORGETS, 2, 0, UINT64_MAX, UINT64_MAX - 1, UINT64_MAX - 2 };
    const pq_entry entry = { UINT64_MAX, UINT64_MAX - 1, 3, 4, 5, 0, { UINT64_MAX - 2, UINT64_MAX - 3 }, 6, 7 };
    CHECK(sizeof options == 40 && options.members == 1 && options.keeping == 0 && options.entries == 2 && options.tickets == 0);
    CHECK(options.time_zero == UINT64_MAX && options.time_unit == UINT64_MAX - 1 && options.most_items == UINT64_MAX - 2);
    CHECK(sizeof entry == 64 && entry.ticket == 6 && entry.priority == 7 && entry.number == UINT64_MAX && entry.serial == UINT64_MAX - 1);
    CHECK(entry.place == 3 && entry.request == 4);
    CHECK(entry.reply == 5 && entry.unused == 0 && sizeof entry.item == 16 && is_item(entry.item, UINT64_MAX - 2, UINT64_MAX - 3));
    CHECK(PQ_FORGETS == 0 && PQ_REFUSES == 1 && PQ_FILLS == 2 && PQ_PUSH == 0 && PQ_POP == 1 && PQ_PEEK == 2 && PQ_REMOVE == 3);
    CHECK(PQ_RESCHEDULE == 4 && PQ_SHUTS == 5 && PQ_NOW == 0 && PQ_FOREVER == UINT64_MAX && PQ_TEXT_ROOM == 160);
    CHECK(PQ_VERSION == 10000 * PQ_VERSION_MAJOR + 100 * PQ_VERSION_MINOR + PQ_VERSION_PATCH && pq_version() == PQ_VERSION);
}

/* Each code has a number that stays, and a text that no other code has. */
static void has_codes(void) {
    const pq_code codes[] = { PQ_OK, PQ_BAD_OPTION, PQ_NO_MEMORY, PQ_JOURNAL_FULL, PQ_EXHAUSTED, PQ_NOT_WRITTEN, PQ_MEMBERS_LEFT,
        PQ_ALL_JOINED, PQ_NO_MEMBER, PQ_NO_ENTRY, PQ_EMPTY, PQ_FORGOTTEN, PQ_NOT_DUE, PQ_SHUT, PQ_UNARCHIVED, PQ_FULL, PQ_NOT_LAWFUL, PQ_TORN,
        PQ_NOT_READ, PQ_NO_TIMER, PQ_GONE, PQ_NO_TICKETS, PQ_FORKED, PQ_PROCESSOR, PQ_TIMED_OUT, PQ_CLOSED };
    const int numbers[] = { 0, 5, 6, 10, 11, 31, 40, 41, 42, 46, 48, 49, 50, 51, 52, 53, 54, 55, 56, 57, 58, 59, 60, 61, 62, 63 };
    const size_t count = sizeof codes / sizeof *codes;
    const char *unknown = pq_code_text(64);
    CHECK(count == sizeof numbers / sizeof *numbers && unknown != NULL && strcmp(unknown, pq_code_text(UINT32_MAX)) == 0);
    for (size_t i = 0; i < count; i++) {
        const char *text = pq_code_text(codes[i]);
        CHECK((int)codes[i] == numbers[i] && text != NULL && text[0] != '\0' && strcmp(text, unknown) != 0);
        for (size_t j = 0; j < i; j++) {
            CHECK(strcmp(text, pq_code_text(codes[j])) != 0);
        }
    }
}

static void has_times(void) {
    uint64_t now = pq_now(), soon = pq_after(1000000000);
    CHECK(now > 0 && soon >= now + 1000000000 && soon <= pq_now() + 1000000000);
    CHECK(pq_after(PQ_FOREVER) == PQ_FOREVER && pq_after(PQ_FOREVER - 1) == PQ_FOREVER && pq_after(0) <= pq_now());
}

int main(void) {
    has_requests();
    has_other_calls();
    CHECK(calls == 39);
    has_constants();
    has_codes();
    has_times();
    pq_journal_free(NULL);
    pq_give_back(NULL);
    pq_free(NULL, NULL, NULL);
    return 0;
}
