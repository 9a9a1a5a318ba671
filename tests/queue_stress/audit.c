/* The end of a round: its journal is one that a plain sorted list could have, and each call returned what stands there. */
#include "stress.h"

#include <fcntl.h>
#include <unistd.h>

uint64_t greatest;

/* The queue of one thread: the items in the order in which they come out, with their tickets. */
typedef struct waiting {
    pq_item item;
    uint64_t ticket;
} waiting;

typedef struct list {
    waiting *items;
    size_t count;
    int is_shut;
} list;

static int same(pq_item one, pq_item other) {
    return one.priority == other.priority && one.value == other.value;
}

/* Puts an item after all of its priority. */
static void put(list *it, pq_item item, uint64_t ticket) {
    const waiting one = { item, ticket };
    size_t at = it->count++;
    for (; at > 0 && it->items[at - 1].item.priority > item.priority; at--) {
        it->items[at] = it->items[at - 1];
    }
    it->items[at] = one;
}

/* The place of the item that an entry is about, or count. */
static size_t place_of(const list *it, const pq_entry *entry) {
    size_t at = 0;
    while ((entry->request == PQ_REMOVE || entry->request == PQ_RESCHEDULE) && at < it->count && it->items[at].ticket != entry->ticket) {
        at++;
    }
    return at;
}

/* Whether the list replies what the entry says. */
static int replies(list *it, const pq_entry *entry) {
    const pq_item moved = { entry->priority, entry->item.value };
    const size_t at = place_of(it, entry);
    const int was_shut = it->is_shut;
    if (entry->request == PQ_SHUTS) {
        it->is_shut = 1;
        return entry->reply == PQ_EMPTY && !was_shut;
    }
    if (entry->request == PQ_PUSH) {
        put(it, entry->item, entry->number);
        return entry->reply == PQ_OK && !was_shut;
    }
    if (at == it->count) {
        return entry->reply == PQ_EMPTY;
    }
    if (entry->reply != PQ_OK || !same(entry->item, it->items[at].item)) {
        return 0;
    }
    if (entry->request != PQ_PEEK) {
        memmove(it->items + at, it->items + at + 1, (--it->count - at) * sizeof *it->items);
    }
    if (entry->request == PQ_RESCHEDULE) {
        put(it, moved, entry->number);
    }
    return 1;
}

static int are_left(const list *it, const pq_item *left, size_t left_count) {
    size_t at = 0;
    while (at < it->count && at < left_count && same(it->items[at].item, left[at])) {
        at++;
    }
    return at == it->count && at == left_count;
}

/* The entries are numbered, the serials of each place go up, and the list replies the same and leaves the same. */
static const char *replayed(const pq_entry *entries, size_t count, const pq_item *left, size_t left_count) {
    uint64_t serials[4096] = { 0 };
    list plain = { (waiting *)malloc((count + 1) * sizeof(waiting)), 0, 0 };
    const char *wrong = NULL;
    for (size_t i = 0; i < count && wrong == NULL; i++) {
        const pq_entry *it = &entries[i];
        wrong = it->number != i + 1                                          ? "an entry has another number than its place in the journal"
              : it->place >= 2080 || it->serial <= serials[it->place & 4095] ? "the serials of a place do not go up"
              : !replies(&plain, it)                                         ? "an entry has another reply than a sorted list"
                                                                             : NULL;
        serials[it->place & 4095] = it->serial;
    }
    if (wrong == NULL && !are_left(&plain, left, left_count)) {
        wrong = "the items that are left are not those of a sorted list";
    }
    free(plain.items);
    return wrong;
}

/* A move returns no item. What was returned before the call began has no later entry. */
static int is_answer(const pq_entry *entry, const answer *it) {
    const int has_item = it->reply == PQ_OK && it->request != PQ_RESCHEDULE;
    return entry->request == it->request && entry->reply == it->reply && (!has_item || same(entry->item, it->item)) && entry->number > it->seen;
}

/* Finds the entry of an answer, which no other answer has: its index, or count. */
static size_t entry_of(const pq_entry *entries, size_t count, const answer *it, const char *is_taken) {
    size_t from = it->number > 0 ? it->number - 1 : 0;
    size_t to = it->number > 0 && it->number < count ? it->number : count;
    for (size_t at = from; at < to; at++) {
        if (!is_taken[at] && is_answer(&entries[at], it)) {
            return at;
        }
    }
    return count;
}

/* Finds the entries of a thread's answers: of those that have numbers, or of the others. */
static int finds_answers(const pq_entry *entries, size_t count, const outcome *one, int has_number, char *is_taken) {
    for (size_t i = 0; i < one->count; i++) {
        answer *it = &one->answers[i];
        if (has_number == (it->number > 0)) {
            size_t at = entry_of(entries, count, it, is_taken);
            if (at == count) {
                return 0;
            }
            is_taken[at] = 1;
            it->number = has_number ? it->number : at + 1;
        }
    }
    return 1;
}

/* The entries of a joined member are of one place, with serials in turn; and what a thread archived is a beginning of the journal. */
static const char *agrees(const pq_entry *entries, size_t count, const outcome *one) {
    for (size_t i = 1; one->has_joined && i < one->count; i++) {
        const pq_entry *last = &entries[one->answers[i - 1].number - 1];
        const pq_entry *it = &entries[one->answers[i].number - 1];
        if (it->place != last->place || it->serial <= last->serial) {
            return "the entries of a member are not of one place, with serials that go up";
        }
    }
    if (one->archived > count || (one->archived > 0 && memcmp(one->archive, entries, one->archived * sizeof *entries) != 0)) {
        return "an archive is no beginning of the journal";
    }
    return NULL;
}

/* What is wrong with the answers of all threads, if anything. */
static const char *answers_wrong(const pq_entry *entries, size_t count, const outcome *all, uint32_t threads, char *is_taken) {
    const char *wrong = NULL;
    for (int has_number = 1; has_number >= 0; has_number--) {
        for (uint32_t i = 0; i < threads && wrong == NULL; i++) {
            wrong = all[i].wrong != NULL                                          ? all[i].wrong
                  : !finds_answers(entries, count, &all[i], has_number, is_taken) ? "a call returned what the journal does not have, or not there"
                                                                                  : NULL;
        }
    }
    for (uint32_t i = 0; i < threads && wrong == NULL; i++) {
        wrong = agrees(entries, count, &all[i]);
    }
    return wrong;
}

const char *audited(const pq_entry *entries, size_t count, const pq_item *left, size_t left_count, const outcome *all, uint32_t threads,
                    uint64_t room) {
    char *is_taken = (char *)calloc(count + 1, 1);
    const char *wrong = replayed(entries, count, left, left_count);
    uint64_t answered = 0;
    uint64_t full = 0;
    wrong = wrong == NULL ? answers_wrong(entries, count, all, threads, is_taken) : wrong;
    free(is_taken);
    for (uint32_t i = 0; i < threads; i++) {
        answered += all[i].count;
        full += all[i].full;
    }
    for (size_t i = 0; i < count; i++) {
        answered += entries[i].request == PQ_SHUTS;
    }
    return wrong != NULL                       ? wrong
         : count > answered                    ? "entries of the journal are those of no call"
         : full > 0 && count < room            ? "a call returned that the journal is full, and it is not"
                                               : NULL;
}

pq_entry *copied(const pq_journal *journal, pq_entry *entries, size_t *count) {
    size_t more = pq_count(journal, NULL);
    entries = (pq_entry *)realloc(entries, (*count + more + 1) * sizeof *entries);
    need(entries != NULL, "no memory");
    for (size_t i = 0; i < more; i++, ++*count) {
        need(pq_read(journal, i, &entries[*count]) == PQ_OK, "the journal lacks an entry");
    }
    return entries;
}

/* Writes the journal where something is wrong, and that of the last round where a file is named. */
static void keep(const pq_journal *journal, int is_wrong) {
    if (is_wrong || (kept.is_last && kept.is_named)) {
        int file = open(kept.path, O_WRONLY | O_CREAT | O_TRUNC | O_CLOEXEC, 0644);
        kept.is_kept = file >= 0 && pq_write(journal, file) == PQ_OK;
        (void)(file >= 0 && close(file));
    }
}

const char *judged(pq_queue *queue, const outcome *all, uint32_t threads, uint64_t room, int is_left_nothing) {
    pq_journal *journal = NULL;
    pq_entry *entries = NULL;
    pq_item left[ROOM];
    size_t count = 0;
    size_t left_count = 0;
    const char *wrong = NULL;
    if (pq_close(queue, &journal) != PQ_OK) {
        return "the queue was not closed";
    }
    pq_free(queue, NULL, NULL);
    entries = copied(journal, NULL, &count);
    while (left_count < ROOM && pq_take_left(journal, &left[left_count]) == PQ_OK) {
        left_count++;
    }
    wrong = audited(entries, count, left, left_count, all, threads, room);
    wrong = wrong == NULL && is_left_nothing && left_count > 0 ? "an item is left beside those who wait for it" : wrong;
    keep(journal, wrong != NULL);
    free(entries);
    pq_journal_free(journal);
    return wrong;
}

/* A journal of two pushes, a pop and a move, as two threads have made them, is lawful, and no longer where one thing is another. */
int finds_faults(void) {
    const pq_entry lawful[4] = { { 1, 1, 0, PQ_PUSH, PQ_OK, 0, { 5, 1 }, 0, 0 },
                                 { 2, 1, 1, PQ_PUSH, PQ_OK, 0, { 3, 2 }, 0, 0 },
                                 { 3, 2, 0, PQ_POP, PQ_OK, 0, { 3, 2 }, 0, 0 },
                                 { 4, 3, 0, PQ_RESCHEDULE, PQ_OK, 0, { 5, 1 }, 1, 7 } };
    const answer of_first[3] = { { 1, PQ_PUSH, PQ_OK, { 5, 1 }, 0 }, { 3, PQ_POP, PQ_OK, { 3, 2 }, 2 }, { 4, PQ_RESCHEDULE, PQ_OK, { 0, 0 }, 3 } };
    const answer of_second = { 0, PQ_PUSH, PQ_OK, { 3, 2 }, 1 };
    const pq_item left = { 7, 1 };
    int found = 1;
    for (int fault = 0; fault <= 12; fault++) {
        pq_entry entries[4];
        answer answers[4] = { of_first[0], of_first[1], of_first[2], of_second };
        outcome all[2] = { { answers, 3, 3, 0, 3, 1, NULL, 0, NULL, 0 }, { &answers[3], 1, 1, 0, 1, 1, NULL, 0, NULL, 0 } };
        memcpy(entries, lawful, sizeof entries);
        entries[1].serial = fault == 1 ? 0 : 1;
        entries[2].item.value = fault == 2 ? 1 : 2;
        entries[2].number = fault == 3 ? 4 : 3;
        entries[2].place = fault == 4 ? 1 : 0;
        answers[0].item.priority = fault == 5 ? 4 : 5;
        all[1].count = fault == 6 ? 0 : 1;
        all[1].full = fault == 7;
        all[1].archive = entries + 1;
        all[1].archived = fault == 8;
        all[0].wrong = fault == 9 ? "a fault" : NULL;
        entries[3].ticket = fault == 10 ? 2 : 1;
        entries[3].priority = fault == 11 ? 8 : 7;
        answers[1].seen = fault == 12 ? 3 : 2;
        found = found && (audited(entries, 4, &left, 1, all, 2, 5) == NULL) == (fault == 0);
    }
    return found && audited(lawful, 4, &left, 0, NULL, 0, 5) != NULL;
}
