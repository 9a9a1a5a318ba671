/* As many entries are kept as a queue is opened with, and one that refuses does so rather than forget what isn't archived. An archiver
   next to four workers at full load loses nothing: each call has its entry in the archive, and no other entry is there.

   c_archived [CALLS [written | most]]: CALLS of each worker, 20,000 if not named; with `written` the archive goes to the output; with
   `most` a queue is opened too that keeps the most entries, which takes 1 GB. */
#include "../wrapped.h"
#include "refused.h"

#include <string.h>
#include <unistd.h>

enum { FEWEST = 64, MOST = 16777216, WORKERS = 4, PLACES = 2080 };

/* Opens a queue with tickets. */
static pq_queue *opened_with_tickets(uint32_t members, uint32_t keeping, uint32_t entries, uint64_t most_items) {
    pq_options options = { 0, 0, 0, 1, 0, 0, 0 };
    pq_queue *queue = NULL;
    options.members = members;
    options.keeping = keeping;
    options.entries = entries;
    options.most_items = most_items;
    CHECK(pq_open(&options, &queue) == PQ_OK);
    return queue;
}

/* Makes so many requests, which leave the items that are there. */
static void makes(pq_member *member, uint32_t calls) {
    for (uint32_t i = 0; i < calls; i++) {
        CHECK(pq_remove(member, UINT64_MAX, NULL, PQ_FOREVER, NULL) == PQ_GONE);
    }
}

/* How many entries an archive gets that has so many. */
static size_t archives(pq_member *member, uint64_t archived) {
    pq_journal *journal = NULL;
    uint64_t before = 0;
    CHECK(pq_archive(member, archived, PQ_FOREVER, &journal) == PQ_OK);
    size_t count = pq_count(journal, &before);
    CHECK(before == archived || count == 0);
    pq_journal_free(journal);
    return count;
}

static void keeps_so_many(uint32_t kept) {
    pq_queue *queue = opened_with_tickets(1, PQ_FORGETS, kept, 0);
    pq_member *member = joined(queue);
    pq_journal *journal = NULL;
    uint64_t before = 0;
    makes(member, kept);
    CHECK(archives(member, 0) == kept);
    makes(member, 3);
    CHECK(pq_archive(member, 2, PQ_FOREVER, &journal) == PQ_FORGOTTEN && journal == NULL && archives(member, 3) == kept);
    pq_give_back(member);
    journal = closed(queue);
    CHECK(pq_count(journal, &before) == kept && before == 3);
    pq_journal_free(journal);
}

/* A peek has no entry, so it is let through. */
static void is_refused(pq_member *member) {
    pq_item item = item_of(7, 8);
    refuses_requests(member, PQ_UNARCHIVED, PQ_FOREVER);
    refuses_requests(member, PQ_UNARCHIVED, PQ_NOW);
    refuses_listening(member, PQ_UNARCHIVED);
    CHECK(pq_peek(member, &item, PQ_FOREVER, NULL) == PQ_OK && is_item(item, 1, 2) && pq_peek(member, &item, PQ_NOW, NULL) == PQ_OK);
}

/* An archive can't have more than there is, and then counts for nothing. */
static void is_too_much(pq_queue *queue, pq_member *member, uint64_t archived) {
    pq_journal *journal = (pq_journal *)queue;
    CHECK(pq_archive(member, archived, PQ_FOREVER, &journal) == PQ_BAD_OPTION && journal == NULL);
    CHECK(pq_wait_archived(queue, archived, PQ_NOW) == PQ_TIMED_OUT);
}

/* As many as are kept are let through beyond those that are archived, one more never. What finds no item has no entry, and is let through. */
static void refuses_what_would_be_forgotten(uint32_t kept) {
    pq_queue *queue = opened_with_tickets(2, PQ_REFUSES, kept, 0);
    pq_member *member = joined(queue), *other = joined(queue);
    pq_item item = item_of(7, 8);
    uint64_t number = 9;
    makes(member, kept - 2);
    is_too_much(queue, member, kept - 1);
    CHECK(pq_push(other, item_of(1, 2), PQ_FOREVER, &number) == PQ_OK && number == kept - 1);
    makes(other, 1);
    CHECK(pq_peek(other, &item, PQ_FOREVER, &number) == PQ_OK && number == kept && is_item(item, 1, 2));
    is_too_much(queue, member, (uint64_t)kept + 1);
    is_refused(member);
    is_refused(other);
    CHECK(archives(member, 0) == kept);
    is_refused(member);
    CHECK(archives(other, 7) == kept - 7);
    /* What was archived stays so. */
    CHECK(archives(other, 3) == kept - 3);
    makes(member, 7);
    is_refused(other);
    is_too_much(queue, member, UINT64_MAX);
    CHECK(archives(member, 7 + (uint64_t)kept) == 0);
    makes(other, kept);
    is_refused(member);
    CHECK(archives(other, 7 + (uint64_t)kept) == kept);
    is_refused(other);
    pq_give_back(member);
    pq_give_back(other);
    is_refused(pq_own(queue));
    pq_journal *journal = closed(queue);
    CHECK(pq_count(journal, NULL) == kept);
    pq_journal_free(journal);
}

/* Polls that find nothing have no entry, so they count for nothing. */
static void polls_count_for_nothing(void) {
    pq_queue *queue = opened_as(1, PQ_REFUSES, FEWEST);
    pq_member *own = pq_own(queue);
    pq_item item = item_of(7, 8);
    uint64_t number = 0;
    for (uint32_t i = 0; i <= FEWEST; i++) {
        CHECK(pq_pop_due(own, UINT64_MAX, &item, PQ_NOW, NULL) == PQ_EMPTY);
    }
    for (uint32_t i = 0; i < FEWEST; i++) {
        CHECK(pq_push(own, item_of(1, i), PQ_FOREVER, NULL) == PQ_OK);
    }
    CHECK(archives(own, 0) == FEWEST && pq_pop_due(own, 9, &item, PQ_NOW, &number) == PQ_UNARCHIVED && archives(own, 1) == FEWEST - 1);
    CHECK(pq_pop_due(own, 9, &item, PQ_NOW, &number) == PQ_OK && is_item(item, 1, 0) && number == FEWEST + 1);
    close_and_free(queue);
}

/* Opens a queue that refuses, which may have so many items. */
static pq_queue *refusing(uint64_t most_items) {
    return opened_with_tickets(3, PQ_REFUSES, FEWEST, most_items);
}

/* So many requests have entries. Others are let through until there are as many entries as are kept. */
static void have_entries(pq_queue *queue, pq_member *member, uint64_t requests) {
    pq_code code = PQ_GONE;
    while (code == PQ_GONE) {
        code = pq_remove(member, UINT64_MAX, NULL, PQ_FOREVER, NULL);
        requests += code != PQ_UNARCHIVED;
    }
    CHECK(code == PQ_UNARCHIVED && requests == FEWEST && archives(member, 0) == FEWEST);
    pq_give_back(member);
    close_and_free(queue);
}

/* Calls that find the lock held have no entry, so each of them counts for nothing. */
static void calls_that_time_out_count_for_nothing(uint64_t most_items) {
    pq_queue *queue = refusing(most_items);
    pq_member *member = joined(queue);
    pq_item item;
    uint64_t size = 0, number = 0;
    holder own;
    hold(&own, queue, HOLDS_AND_STOPS);
    refuses_requests(member, PQ_TIMED_OUT, PQ_NOW);
    CHECK(pq_remove(member, 1, &item, PQ_NOW, &number) == PQ_TIMED_OUT && pq_reschedule(member, 1, 5, PQ_NOW, &number) == PQ_TIMED_OUT);
    CHECK(pq_take_or_listen(member, 9, &item, &number, notes_nothing, NULL) == PQ_EMPTY && pq_unlisten(member) == 0);
    CHECK(pq_size(member, PQ_NOW, &size, NULL) == PQ_TIMED_OUT && pq_peek(member, &item, PQ_NOW, &number) == PQ_TIMED_OUT && number == 0);
    let_go(&own);
    have_entries(queue, member, own.pushed);
}

/* Neither has a push that finds the queue full, or shut; the shut has one. */
static void refused_pushes_count_for_nothing(uint64_t most_items) {
    const pq_item items[2] = { { 1, 2 }, { 3, 4 } };
    const pq_code code = most_items == 0 ? PQ_SHUT : PQ_FULL;
    pq_queue *queue = refusing(most_items);
    pq_member *member = joined(queue);
    size_t done = 9;
    CHECK(pq_push(member, items[0], PQ_NOW, NULL) == PQ_OK && (code == PQ_FULL || pq_shut(queue) == PQ_OK));
    CHECK(pq_push(member, items[0], PQ_NOW, NULL) == code && pq_push_many(member, items, 2, PQ_NOW, &done, NULL) == code && done == 0);
    have_entries(queue, member, 1 + (code == PQ_SHUT));
}

/* A batch of pops counts for as many items as it takes out. */
static void batches_count_for_what_they_pop(void) {
    pq_queue *queue = refusing(0);
    pq_member *member = joined(queue);
    pq_item some[64];
    size_t done = 9;
    CHECK(pq_push(member, item_of(1, 2), PQ_NOW, NULL) == PQ_OK);
    CHECK(pq_pop_due_many(member, 9, some, 64, PQ_NOW, &done, NULL) == PQ_OK && done == 1 && is_item(some[0], 1, 2));
    CHECK(pq_pop_due_many(member, 9, some, 64, PQ_NOW, &done, NULL) == PQ_EMPTY && done == 0);
    have_entries(queue, member, 2);
}

/* What the workers did, or what the archive has. */
typedef struct tally {
    uint64_t requests[2], sums[2], empty; /* of pushes, and of pops */
} tally;

static void counts(tally *it, uint32_t request, uint32_t reply, pq_item item) {
    CHECK(request <= PQ_POP && (reply == PQ_OK || (reply == PQ_EMPTY && request == PQ_POP)));
    it->requests[request]++;
    it->sums[request] += reply == PQ_OK ? item.value : 0;
    it->empty += reply == PQ_EMPTY;
}

typedef struct worker {
    pthread_t thread;
    pq_queue *queue;
    long calls;
    uint64_t refused;
    tally made;
} worker;

static void *works(void *at) {
    worker *own = (worker *)at;
    pq_member *member = joined(own->queue);
    for (long i = 0; i < own->calls; i++) {
        pq_item item = item_of((uint32_t)(i * 2654435761u) >> 8, (uint32_t)i);
        pq_code code;
        while ((code = i % 2 == 0 ? pq_push(member, item, PQ_FOREVER, NULL) : pq_pop(member, &item, PQ_FOREVER, NULL)) == PQ_UNARCHIVED) {
            own->refused++;
            usleep(100);
        }
        counts(&own->made, i % 2 == 0 ? PQ_PUSH : PQ_POP, code, item);
    }
    pq_give_back(member);
    return NULL;
}

typedef struct archiver {
    pq_member *member;
    uint64_t archived, serials[PLACES];
    tally has;
    int is_written;
} archiver;

/* Archives what is new, and all of it: how many entries. Those of a place are in their order; refused requests count there too. */
static size_t goes_on(archiver *own) {
    pq_journal *journal = NULL;
    pq_entry entry;
    uint64_t before = 0;
    CHECK(pq_archive(own->member, own->archived, PQ_FOREVER, &journal) == PQ_OK);
    size_t count = pq_count(journal, &before);
    for (size_t i = 0; i < count; i++) {
        CHECK(pq_read(journal, i, &entry) == PQ_OK && entry.number == own->archived + i + 1);
        CHECK(entry.place < PLACES && entry.serial > own->serials[entry.place]);
        own->serials[entry.place] = entry.serial;
        counts(&own->has, entry.request, entry.reply, entry.item);
    }
    CHECK(before == own->archived && (!own->is_written || pq_write(journal, STDOUT_FILENO) == PQ_OK));
    pq_journal_free(journal);
    own->archived += count;
    return count;
}

static void loses_nothing(long calls, int is_written) {
    static worker workers[WORKERS];
    static archiver own;
    tally made = { { 0, 0 }, { 0, 0 }, 0 };
    uint64_t refused = 0, all = (uint64_t)calls * WORKERS;
    pq_queue *queue = opened_as(WORKERS + 1, PQ_REFUSES, FEWEST);
    own.member = joined(queue);
    own.is_written = is_written;
    for (int i = 0; i < WORKERS; i++) {
        workers[i].queue = queue;
        workers[i].calls = calls;
        workers[i].thread = started(works, &workers[i]);
    }
    while (own.archived < all) {
        if (goes_on(&own) == 0) {
            usleep(100);
        }
    }
    for (int i = 0; i < WORKERS; i++) {
        ended(workers[i].thread);
        for (uint32_t request = PQ_PUSH; request <= PQ_POP; request++) {
            made.requests[request] += workers[i].made.requests[request];
            made.sums[request] += workers[i].made.sums[request];
        }
        made.empty += workers[i].made.empty;
        refused += workers[i].refused;
    }
    CHECK(goes_on(&own) == 0 && own.archived == all && memcmp(&made, &own.has, sizeof made) == 0);
    pq_give_back(own.member);
    close_and_free(queue);
    fprintf(stderr, "%llu calls archived, refused %llu times\n", (unsigned long long)own.archived, (unsigned long long)refused);
}

int main(int count, char **words) {
    long calls = count > 1 ? strtol(words[1], NULL, 10) : 20000;
    const char *word = count > 2 ? words[2] : "";
    if (strcmp(word, "written") != 0) {
        keeps_so_many(FEWEST + 1);
        refuses_what_would_be_forgotten(FEWEST + 10);
        polls_count_for_nothing();
        calls_that_time_out_count_for_nothing(0);
        calls_that_time_out_count_for_nothing(UINT64_MAX);
        refused_pushes_count_for_nothing(0);
        refused_pushes_count_for_nothing(1);
        batches_count_for_what_they_pop();
    }
    if (strcmp(word, "most") == 0) {
        keeps_so_many(MOST);
    }
    loses_nothing(calls, strcmp(word, "written") == 0);
    return 0;
}
