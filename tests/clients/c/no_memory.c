/* Each request for memory is refused in turn: the calls say so, change nothing and lose nothing; and only an opening, a joining, a
   thread's first call by pq_own, an archive, a push, a move, a close that leaves a journal and the reading of one ask for memory. Linked with
   --wrap=malloc and so on. */
#include "../check.h"

void *__real_malloc(size_t size);
void *__real_calloc(size_t count, size_t size);
void *__real_realloc(void *block, size_t size);
void *__real_aligned_alloc(size_t alignment, size_t size);
void __real_free(void *block);
void *__wrap_malloc(size_t size);
void *__wrap_calloc(size_t count, size_t size);
void *__wrap_realloc(void *block, size_t size);
void *__wrap_aligned_alloc(size_t alignment, size_t size);
void __wrap_free(void *block);

/* How many requests are granted before all are refused, how many were refused, and how many blocks are out. */
static long granted = -1, refused, out;

static int is_refused(void) {
    if (granted == 0) {
        refused++;
        return 1;
    }
    granted -= granted > 0;
    return 0;
}

void *__wrap_malloc(size_t size) {
    void *block = is_refused() ? NULL : __real_malloc(size);
    out += block != NULL;
    return block;
}

void *__wrap_calloc(size_t count, size_t size) {
    void *block = is_refused() ? NULL : __real_calloc(count, size);
    out += block != NULL;
    return block;
}

void *__wrap_aligned_alloc(size_t alignment, size_t size) {
    void *block = is_refused() ? NULL : __real_aligned_alloc(alignment, size);
    out += block != NULL;
    return block;
}

void *__wrap_realloc(void *block, size_t size) {
    void *moved = is_refused() ? NULL : __real_realloc(block, size);
    out += block == NULL && moved != NULL;
    return moved;
}

void __wrap_free(void *block) {
    out -= block != NULL;
    __real_free(block);
}

static void refuse_after(long asked) {
    granted = asked;
    refused = 0;
}

/* Makes a call with each of its requests for memory refused once before, until all are granted; a refused call says PQ_NO_MEMORY, and then
   this holds. `had` is how many blocks there were, and `asked` how many requests there are. */
#define AT_LAST(asked, call, holds)                                                       \
    do {                                                                                  \
        const long had = out;                                                             \
        (void)had;                                                                        \
        pq_code code = PQ_NO_MEMORY;                                                      \
        for (asked = 0; code != PQ_OK; asked += code != PQ_OK) {                          \
            refuse_after(asked);                                                          \
            code = (call);                                                                \
            CHECK(code == PQ_OK || (code == PQ_NO_MEMORY && refused > 0 && (holds)));     \
        }                                                                                 \
        refuse_after(-1);                                                                 \
    } while (0)

static pq_queue *opened_at_last(uint32_t keeping, uint32_t entries) {
    pq_options options = { 2, 0, 0, 0, 0, 0, 0 };
    pq_queue *queue = NULL;
    long asked;
    options.keeping = keeping;
    options.entries = entries;
    AT_LAST(asked, pq_open(&options, &queue), queue == NULL && out == had);
    CHECK(asked > 3 && queue != NULL);
    return queue;
}

static pq_member *joined_at_last(pq_queue *queue) {
    pq_member *member = NULL;
    long asked;
    AT_LAST(asked, pq_join(queue, PQ_NOW, &member), member == NULL);
    CHECK(asked > 0 && member != NULL);
    return member;
}

/* Pushes an item, refused first where the push asks for memory: whether it did. */
static int pushed_at_last(pq_member *member, pq_item item, uint64_t number) {
    uint64_t got = 9;
    size_t done = 9;
    refuse_after(0);
    pq_code code = pq_push(member, item, PQ_FOREVER, &got);
    if (code == PQ_OK) {
        CHECK(got == number && refused == 0);
        refuse_after(-1);
        return 0;
    }
    CHECK(code == PQ_NO_MEMORY && refused == 1 && pq_push_many(member, &item, 1, PQ_FOREVER, &done, NULL) == PQ_NO_MEMORY && done == 0);
    refuse_after(-1);
    CHECK(pq_push(member, item, PQ_FOREVER, &got) == PQ_OK && got == number);
    return 1;
}

/* Takes out what is left, which is these items. */
static void are_left(pq_member *member, const pq_item *items, size_t count) {
    pq_item item;
    for (size_t i = 0; i < count; i++) {
        CHECK(pq_pop(member, &item, PQ_FOREVER, NULL) == PQ_OK && is_item(item, items[i].priority, items[i].value));
    }
    CHECK(pq_pop_due(member, UINT64_MAX, &item, PQ_FOREVER, NULL) == PQ_EMPTY);
}

/* Pushes a batch into a new queue, refused where it asks for memory the next time: how many items went in. These stay in, and the next batch
   has the others. */
static size_t pushed_while_granted(const pq_options *options, const pq_item *items, size_t count, long asked) {
    const long had = out;
    pq_queue *queue = NULL;
    size_t done = count + 1, others = count;
    uint64_t number = 9;
    CHECK(pq_open(options, &queue) == PQ_OK);
    pq_member *member = joined(queue);
    refuse_after(asked);
    pq_code code = pq_push_many(member, items, count, PQ_FOREVER, &done, &number);
    CHECK(number == (done > 0 ? 1 : 9));
    CHECK(code == PQ_OK ? done == count && refused == 0 : code == PQ_NO_MEMORY && done < count && refused == 1);
    refuse_after(-1);
    if (asked % 2 == 0) {
        CHECK(pq_push_many(member, items + done, count - done, PQ_FOREVER, &others, &number) == PQ_OK && others == count - done);
        CHECK(number == (count > done ? done + 1 : 1));
        are_left(member, items, count);
    } else {
        are_left(member, items, done);
    }
    pq_give_back(member);
    close_and_free(queue);
    CHECK(out == had);
    return done;
}

/* Batches of two items and more, of one part and of several: each request for memory of theirs is the first that is refused. */
static void a_batch_ends_where_memory_does(uint32_t keeping, uint32_t entries) {
    enum { MOST = 200 };
    const size_t counts[] = { 2, 3, 64, 65, MOST };
    pq_options options = { 1, 0, 0, 0, 0, 0, 0 };
    pq_item items[MOST];
    options.keeping = keeping;
    options.entries = entries;
    for (size_t i = 0; i < MOST; i++) {
        items[i] = item_of(i / 7, i);
    }
    for (size_t i = 0; i < sizeof counts / sizeof *counts; i++) {
        size_t before = 0, done = pushed_while_granted(&options, items, counts[i], 0);
        CHECK(done == 0);
        for (long asked = 1; done < counts[i]; asked++) {
            before = done;
            done = pushed_while_granted(&options, items, counts[i], asked);
            CHECK(done > before);
        }
    }
}

static void archived_at_last(pq_member *member, size_t entries) {
    pq_journal *journal = NULL;
    const long before = out;
    long asked;
    AT_LAST(asked, pq_archive(member, 0, PQ_FOREVER, &journal), journal == NULL && out == had);
    CHECK(asked > 0 && pq_count(journal, NULL) == entries);
    pq_journal_free(journal);
    CHECK(out == before);
}

/* All of this is done while no memory is to be had. */
static void asks_for_no_memory(pq_member *member, pq_member *other, uint64_t entries) {
    pq_item item = item_of(7, 8), items[2];
    uint64_t number = 9;
    size_t done = 9;
    refuse_after(0);
    CHECK(pq_peek(member, &item, PQ_FOREVER, &number) == PQ_OK && number == entries && item.value == entries);
    CHECK(pq_pop(other, &item, PQ_FOREVER, &number) == PQ_OK && number == entries + 1 && item.value == entries);
    CHECK(pq_pop_due(other, 0, &item, PQ_FOREVER, NULL) == PQ_NOT_DUE && item.value == entries - 1);
    CHECK(pq_take(other, &item, PQ_FOREVER, NULL) == PQ_OK && pq_take_due(other, &item, PQ_FOREVER, NULL) == PQ_OK);
    CHECK(pq_pop_due_many(member, 4, items, 2, PQ_FOREVER, &done, NULL) == PQ_OK && done == 2 && is_item(items[1], 4, entries - 4));
    CHECK(pq_pop(member, &item, PQ_FOREVER, NULL) == PQ_OK && pq_place(member) < 2080 && is_item(item, 5, entries - 5) && refused == 0);
    refuse_after(-1);
}

/* Each time from the begin of the file. */
static void read_back_at_last(pq_journal *written) {
    FILE *made = tmpfile();
    pq_journal *journal = NULL;
    long asked;
    CHECK(made != NULL && pq_write(written, fileno(made)) == PQ_OK);
    AT_LAST(asked, (rewind(made), pq_journal_read(fileno(made), &journal, NULL, NULL)), journal == NULL && out == had);
    CHECK(asked > 3 && pq_count(journal, NULL) == pq_count(written, NULL) && fclose(made) == 0);
    pq_journal_free(journal);
}

static int is_open(pq_queue *queue) {
    refuse_after(-1);
    pq_give_back(joined(queue));
    return 1;
}

static void goes_on_without_memory(uint32_t keeping, uint32_t entries) {
    enum { PUSHES = 40 };
    pq_queue *queue = opened_at_last(keeping, entries);
    pq_member *member = joined_at_last(queue), *other = joined_at_last(queue), *none = member;
    pq_journal *journal = NULL;
    pq_entry entry;
    pq_item item;
    long asked = 0;
    CHECK(pq_join(queue, PQ_NOW, &none) == PQ_ALL_JOINED && none == NULL);
    for (uint32_t i = 1; i <= PUSHES; i++) {
        asked += pushed_at_last(i % 2 == 0 ? member : other, item_of(PUSHES - i, i), i);
    }
    CHECK(asked > 0 && asked < PUSHES);
    archived_at_last(other, PUSHES);
    asks_for_no_memory(member, other, PUSHES);
    pq_give_back(member);
    pq_give_back(other);
    AT_LAST(asked, pq_close(queue, &journal), journal == NULL && out == had && is_open(queue));
    CHECK(asked > 0 && pq_count(journal, NULL) == PUSHES + 6 && pq_read(journal, 0, &entry) == PQ_OK && entry.item.value == 1);
    CHECK(entry.serial == 3); /* two pushes were refused before */
    pq_free(queue, NULL, NULL);
    read_back_at_last(journal);
    CHECK(pq_take_left(journal, &item) == PQ_OK && is_item(item, 6, PUSHES - 6));
    pq_journal_free(journal);
}

/* A thread's first call asks for a member; what follows asks for none. A queue is closed without memory where no journal is asked for. What
   the thread keeps otherwise goes when it ends. */
static void *has_own_members(void *unused) {
    pq_queue *queue = opened(1);
    pq_member *own = pq_own(queue);
    pq_item item = item_of(7, 8);
    uint64_t size;
    long asked;
    AT_LAST(asked, pq_size(own, PQ_FOREVER, &size, NULL), pq_place(own) == UINT32_MAX);
    CHECK(asked > 0 && pq_place(own) != UINT32_MAX);
    refuse_after(0);
    CHECK(pq_pop(own, &item, PQ_FOREVER, NULL) == PQ_EMPTY);
    pq_leave(queue);
    CHECK(pq_place(own) == UINT32_MAX && pq_close(queue, NULL) == PQ_OK && refused == 0);
    pq_free(queue, NULL, NULL);
    refuse_after(-1);
    return unused;
}

/* A shut that found all members in use waits for a close, which makes it or is refused. */
static void *closes_while_a_shut_waits(void *unused) {
    pq_queue *queue = opened(1);
    pq_member *member = joined(queue);
    pq_journal *journal = NULL;
    pq_entry entry;
    long asked;
    CHECK(pq_shut(queue) == PQ_OK);
    pq_give_back(member);
    AT_LAST(asked, pq_close(queue, &journal), journal == NULL && out == had);
    CHECK(asked > 1 && pq_count(journal, NULL) == 1 && pq_read(journal, 0, &entry) == PQ_OK && entry.request == PQ_SHUTS);
    pq_free(queue, NULL, NULL);
    pq_journal_free(journal);
    return unused;
}

/* Where a push is refused, so is a move, and the item stays where it is. */
static void a_refused_move_leaves_the_item(uint32_t keeping, uint32_t entries, uint64_t most_items) {
    const pq_options options = { 1, keeping, entries, 1, 0, 0, most_items };
    pq_queue *queue = NULL;
    pq_item item;
    uint64_t ticket = 0, number = 9, others = 0;
    pq_code code;
    CHECK(pq_open(&options, &queue) == PQ_OK);
    pq_member *member = joined(queue);
    CHECK(pq_push(member, item_of(50, 1), PQ_FOREVER, &ticket) == PQ_OK);
    refuse_after(0);
    while ((code = pq_push(member, item_of(60, 2), PQ_FOREVER, NULL)) == PQ_OK) {
        others++;
    }
    CHECK(code == PQ_NO_MEMORY && refused == 1 && pq_reschedule(member, ticket, 70, PQ_FOREVER, &number) == PQ_NO_MEMORY && refused == 2 && number == 9);
    CHECK(pq_reschedule(member, 1000, 70, PQ_FOREVER, &number) == PQ_GONE && refused == 2 && number == others + 2);
    CHECK(pq_peek(member, &item, PQ_FOREVER, NULL) == PQ_OK && is_item(item, 50, 1));
    refuse_after(-1);
    CHECK(pq_reschedule(member, ticket, 70, PQ_FOREVER, &number) == PQ_OK && number == others + 3);
    for (; others > 0; others--) {
        CHECK(pq_pop(member, &item, PQ_FOREVER, NULL) == PQ_OK && is_item(item, 60, 2));
    }
    CHECK(pq_remove(member, number, &item, PQ_FOREVER, NULL) == PQ_OK && is_item(item, 70, 1));
    pq_give_back(member);
    close_and_free(queue);
}

/* The system has no key left, by whose destructor a thread's end would give its member back. */
static void a_thread_without_an_end_has_no_member(void) {
    pthread_key_t key;
    pq_queue *queue = opened(1);
    uint64_t size;
    while (pthread_key_create(&key, NULL) == 0) {
    }
    CHECK(pq_size(pq_own(queue), PQ_FOREVER, &size, NULL) == PQ_NO_MEMORY && pq_place(pq_own(queue)) == UINT32_MAX);
    pq_give_back(joined(queue));
    close_and_free(queue);
}

int main(void) {
    in_child(a_thread_without_an_end_has_no_member);
    a_batch_ends_where_memory_does(PQ_FILLS, 1000);
    a_batch_ends_where_memory_does(PQ_FORGETS, 0);
    a_refused_move_leaves_the_item(PQ_FILLS, 100, 0);
    a_refused_move_leaves_the_item(PQ_FORGETS, 0, 0);
    a_refused_move_leaves_the_item(PQ_FORGETS, 0, UINT64_MAX);
    CHECK(out == 0);
    for (int i = 0; i < 2; i++) {
        goes_on_without_memory(PQ_FILLS, 100);
        goes_on_without_memory(PQ_FORGETS, 0);
        goes_on_without_memory(PQ_REFUSES, 0);
        ended(started(has_own_members, NULL));
        ended(started(closes_while_a_shut_waits, NULL));
        CHECK(out == 0);
    }
    return 0;
}
