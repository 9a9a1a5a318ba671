/*
 * The journal of an execution, from its archives and its end, against a queue of sorted items, and against what the calls returned.
 */
#include "explore.h"

#include <string.h>

enum { MOST_ITEMS = 64, MOST_ENTRIES = 128 };

static pq_entry entries[MOST_ENTRIES];
static size_t entry_count;
static struct {
    pq_item item;
    uint64_t ticket;
} model[MOST_ITEMS];
static size_t size, peak, shut;
static struct {
    size_t size, peak;
    pq_item first;
} after[MOST_ENTRIES + 1]; /* so many entries */

void journal_begin(void) {
    entry_count = 0;
}

uint64_t journal_kept(void) {
    return entry_count;
}

/* Keeps the entries that no archive had. Those that one had are the same again, and none is missing between. */
void check_archive(const pq_journal *journal) {
    const size_t lines = pq_count(journal, NULL);
    for (size_t i = 0; i < lines; i++) {
        pq_entry entry;
        if (pq_read(journal, i, &entry) != PQ_OK || entry.number > entry_count + 1 || entry.number > MOST_ENTRIES) {
            fail("entry %zu of a journal is not read, or does not follow entry %zu", i + 1, entry_count);
        }
        if (entry.number == entry_count + 1) {
            entries[entry_count++] = entry;
        } else if (memcmp(&entries[entry.number - 1], &entry, sizeof entry) != 0) {
            fail("entry %llu is not as an archive had it", (unsigned long long)entry.number);
        }
    }
}

/* Whether the shut's entry is one that an archive had. */
int journal_has_shut(void) {
    for (size_t i = 0; i < entry_count; i++) {
        if (entries[i].request == PQ_SHUTS) {
            return 1;
        }
    }
    return 0;
}

static int comes_before(size_t one, size_t other) {
    const uint64_t key = model[one].item.priority, than = model[other].item.priority;
    return key < than || (key == than && model[one].ticket < model[other].ticket);
}

/* Where the first item stands, if there is one. */
static size_t first_of_all(void) {
    size_t at = 0;
    for (size_t i = 1; i < size; i++) {
        at = comes_before(i, at) ? i : at;
    }
    return at;
}

/* Where the item of an entry stands: `size` where it is not there. */
static size_t place_of(const pq_entry *entry) {
    size_t at = 0;
    if (entry->request != PQ_PUSH && entry->request != PQ_REMOVE && entry->request != PQ_RESCHEDULE) {
        return first_of_all();
    }
    while (at < size && model[at].ticket != entry->ticket) {
        at++;
    }
    return at;
}

static void follow(size_t number, const pq_entry *entry) {
    const size_t at = place_of(entry);
    if (shut != 0 && (entry->request == PQ_PUSH || entry->request == PQ_SHUTS)) {
        fail("entry %zu pushes or shuts, and entry %zu has shut the queue", number, shut);
    }
    if (entry->request == PQ_SHUTS) {
        shut = number;
    } else if (entry->request == PQ_PUSH) {
        if (size == MOST_ITEMS) {
            fail("a scenario has more than %d items", MOST_ITEMS);
        }
        model[size].item = entry->item;
        model[size++].ticket = entry->number;
    } else if (at >= size) {
        if (entry->reply != PQ_EMPTY) {
            fail("entry %zu finds an item, and there is none", number);
        }
    } else if (entry->reply != PQ_OK || memcmp(&entry->item, &model[at].item, sizeof entry->item) != 0) {
        fail("entry %zu does not find the item that is there", number);
    } else if (entry->request == PQ_RESCHEDULE) {
        model[at].item.priority = entry->priority;
        model[at].ticket = entry->number;
    } else if (entry->request != PQ_PEEK) {
        model[at] = model[--size];
    }
}

static int is_of(const done *it, const pq_entry *entry) {
    const int is_same = it->number == UNNUMBERED ? memcmp(&it->item, &entry->item, sizeof it->item) == 0 : it->number == entry->number;
    return it->code == PQ_OK && is_same;
}

/* Whether an entry took this call's item out. */
static int has_entry(const done *it) {
    for (size_t i = 0; i < entry_count; i++) {
        if (entries[i].request == it->request && is_of(it, &entries[i])) {
            return 1;
        }
    }
    return 0;
}

/* A call returned this entry, and no other did. */
static void check_done(const done *all, int which) {
    const done *it = &all[which];
    const pq_entry *entry;
    if (it->number == UNNUMBERED && !has_entry(it)) {
        fail("a call returned the item %llu, and no entry took it out", (unsigned long long)it->item.value);
    }
    if (it->number == 0 || it->number == UNNUMBERED || it->request > PQ_RESCHEDULE) {
        return;
    }
    for (int i = 0; i < which; i++) {
        if (all[i].number == it->number && all[i].request <= PQ_RESCHEDULE) {
            fail("two calls have entry %llu", (unsigned long long)it->number);
        }
    }
    entry = it->number <= entry_count ? &entries[it->number - 1] : NULL;
    if (entry == NULL || entry->request != it->request
        || (it->code == PQ_OK && it->request != PQ_RESCHEDULE && memcmp(&entry->item, &it->item, sizeof entry->item) != 0)) {
        fail("a call returned entry %llu, which is not of it", (unsigned long long)it->number);
    }
}

/* An item that is out was returned once. */
static void check_returned(const pq_entry *entry, const done *all, int count) {
    int returned = 0;
    if ((entry->request != PQ_POP && entry->request != PQ_REMOVE) || entry->reply != PQ_OK) {
        return;
    }
    for (int i = 0; i < count; i++) {
        returned += (all[i].request == PQ_POP || all[i].request == PQ_REMOVE) && is_of(&all[i], entry);
    }
    if (returned != 1) {
        fail("entry %llu took an item out, and %d calls returned it", (unsigned long long)entry->number, returned);
    }
}

/* A batch that ended with this entry, though it had room, has left no item up to its bound. */
static void check_batch(const pq_entry *entry, const done *all, int count) {
    for (int i = 0; i < count; i++) {
        if (all[i].request == LEAVES_NONE && all[i].number == entry->number && size > 0
            && model[place_of(entry)].item.priority <= all[i].item.priority) {
            fail("a batch ended with entry %llu, and the next item was due", (unsigned long long)entry->number);
        }
    }
}

static int has_number(const done *it) {
    return it->number != 0 && it->number != UNNUMBERED && it->request <= PQ_SHUTS;
}

/* Whether a call that has no entry could return this after so many entries. */
static int fits(const done *it, size_t at) {
    if (it->request == SIZED) {
        return after[at].size == it->item.priority && after[at].peak == it->item.value;
    }
    if (it->request == PEEKED && it->number != at) {
        return 0;
    }
    if (it->code == PQ_OK) {
        return after[at].size > 0 && memcmp(&after[at].first, &it->item, sizeof it->item) == 0;
    }
    return it->code == PQ_FULL ? after[at].size >= queue->most_items : after[at].size == 0;
}

/* The first shut: its entry, and its calls from the first begin to the first return. */
static done first_shut(const done *all, int count) {
    done first = { PQ_SHUTS, PQ_OK, { 0, 0 }, shut, UINT64_MAX, UINT64_MAX };
    for (int i = 0; i < count && shut != 0; i++) {
        if (all[i].request == PQ_SHUTS) {
            first.begun = all[i].begun < first.begun ? all[i].begun : first.begun;
            first.ended = all[i].ended < first.ended ? all[i].ended : first.ended;
        }
    }
    return first;
}

/* Between these numbers of entries a call comes, if it has to come after this one, or before it. */
static void bound_by(const done *other, const done *it, size_t *from, size_t *to) {
    if (has_number(other)) {
        *from = other->ended < it->begun && other->number > *from ? other->number : *from;
        *to = it->ended < other->begun && other->number <= *to ? other->number - 1 : *to;
    }
}

/* The order of the journal is that of the calls: one that began after another had ended comes after it, with an entry or without. */
static void check_order(const done *it, const done *all, int count, const done *shuts) {
    const int has_peeked = it->request == PEEKED && (it->code == PQ_OK || it->code == PQ_EMPTY);
    const int is_look = has_peeked || (it->number == 0 && (it->request == SIZED || it->code == PQ_EMPTY || it->code == PQ_FULL));
    size_t from = 0, to = entry_count;
    for (int i = 0; i < count; i++) {
        bound_by(&all[i], it, &from, &to);
    }
    /* (peeks go on before a shut that waits for the archive) */
    if (it != shuts && shuts->ended != UINT64_MAX && !waits_for_archive) {
        bound_by(shuts, it, &from, &to);
    }
    if (has_number(it) && (it->number <= from || it->number > to)) {
        fail("entry %llu is of a call that began after entry %zu, or ended before entry %zu", (unsigned long long)it->number, from, to + 1);
    }
    while (is_look && from <= to && !fits(it, from)) {
        from++;
    }
    if (from > to) {
        fail("between its begin and its end what a call returned was not so: %s, size %llu, peak %llu", pq_code_text(it->code),
             (unsigned long long)it->item.priority, (unsigned long long)it->item.value);
    }
}

uint64_t journal_shut(void) {
    return shut;
}

void check_journal(const pq_journal *journal, const done *all, int count, int heard_end) {
    done of_shut;
    size = peak = shut = 0;
    check_archive(journal);
    for (size_t i = 0; i < entry_count; i++) {
        follow(i + 1, &entries[i]);
        peak = size > peak ? size : peak;
        after[i + 1].size = size;
        after[i + 1].peak = peak;
        after[i + 1].first = model[first_of_all()].item;
        check_batch(&entries[i], all, count);
        if (count < MOST_DONE) {
            check_returned(&entries[i], all, count);
        }
    }
    if (heard_end && size > 0) {
        fail("a thread heard that nothing is left, and %zu items are", size);
    }
    of_shut = first_shut(all, count);
    for (int i = 0; i < count; i++) {
        check_done(all, i);
        check_order(&all[i], all, count, &of_shut);
    }
    if (of_shut.ended != UINT64_MAX) {
        check_order(&of_shut, all, count, &of_shut);
    }
}
