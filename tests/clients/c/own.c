/* Own members: more threads than members call by pq_own, and at the same address comes one queue after another. When a thread's member goes to
   others tests/explore tries. */
#include "../check.h"

enum { THREADS = 200, COMING = 10000 };

static pq_queue *queue;

/* Another thread, which does one thing at a time, until it is to end. */
typedef struct helper {
    pthread_t thread;
    void (*next)(void);
} helper;

static void is_over(void) {
}

static void *helps(void *own) {
    helper *it = (helper *)own;
    void (*next)(void) = NULL;
    while (next != is_over) {
        next = __atomic_load_n(&it->next, __ATOMIC_ACQUIRE);
        if (next == NULL) {
            sleep_ms(1);
        } else {
            next();
            __atomic_store_n(&it->next, NULL, __ATOMIC_RELEASE);
        }
    }
    return NULL;
}

static void begins(helper *it) {
    it->next = NULL;
    it->thread = started(helps, it);
}

/* Has the thread do this, and waits until it is done. */
static void does(helper *it, void (*next)(void)) {
    __atomic_store_n(&it->next, next, __ATOMIC_RELEASE);
    while (__atomic_load_n(&it->next, __ATOMIC_ACQUIRE) != NULL) {
        sleep_ms(1);
    }
}

static void ends(helper *it) {
    does(it, is_over);
    ended(it->thread);
}

static void pushes_one(void) {
    CHECK(pq_push(pq_own(queue), item_of(1, 2), PQ_NOW, NULL) == PQ_OK && pq_place(pq_own(queue)) != UINT32_MAX);
}

static void has_none(void) {
    CHECK(pq_place(pq_own(queue)) == UINT32_MAX);
}

/* Whether the item of this value was popped. */
static int is_popped[COMING];

static void *comes_and_goes(void *own) {
    const uint64_t value = (uint64_t)((int *)own - is_popped);
    pq_item item = item_of(value % 5, value);
    CHECK(pq_push(pq_own(queue), item, PQ_FOREVER, NULL) == PQ_OK && pq_pop(pq_own(queue), &item, PQ_FOREVER, NULL) == PQ_OK);
    CHECK(item.value < COMING && __atomic_exchange_n(&is_popped[item.value], 1, __ATOMIC_RELAXED) == 0);
    return NULL;
}

/* At most so many of them run at once: a thread begins as the oldest has ended. Each pops one item, and no two pop the same. */
static void thousands_come_and_go(void) {
    const uint32_t coming = requests(COMING), at_once = requests(THREADS);
    pthread_t running[THREADS];
    pq_item item;
    queue = opened_as(8, PQ_FILLS, 2 * COMING);
    for (uint32_t i = 0; i < coming + at_once; i++) {
        if (i >= at_once) {
            ended(running[i % at_once]);
        }
        if (i < coming) {
            running[i % at_once] = started(comes_and_goes, &is_popped[i]);
        }
    }
    pq_journal *journal = closed(queue);
    CHECK(pq_count(journal, NULL) == 2 * coming && pq_take_left(journal, &item) == PQ_EMPTY);
    pq_journal_free(journal);
}

/* The queue at this address is another one. */
static void a_new_queue_is_not_taken_for_a_freed_one(void) {
    helper other;
    begins(&other);
    for (int i = 0; i < 20; i++) {
        queue = opened(2);
        does(&other, has_none);
        has_none();
        does(&other, pushes_one);
        pushes_one();
        pq_journal *journal = i % 2 == 0 ? closed(queue) : NULL;
        CHECK(journal == NULL || pq_count(journal, NULL) == 2);
        pq_journal_free(journal);
        pq_free(i % 2 == 0 ? NULL : queue, NULL, NULL);
    }
    ends(&other);
}

static pq_member *at_its_address;
static int notifies;

static void counts(void *context) {
    (void)context;
    notifies++;
}

static void listens_a_while(void) {
    pq_item item;
    CHECK(pq_take_or_listen(at_its_address, 9, &item, NULL, counts, NULL) == PQ_EMPTY && pq_unlisten(at_its_address) == 1);
}

/* The thread has called a queue, which then was freed, and a member of another was joined there. */
static void a_joined_member_is_not_taken_for_a_freed_queue(void) {
    pq_queue *kept = opened(64);
    pq_member *members[60];
    helper other;
    begins(&other);
    queue = opened(2);
    const uintptr_t address = (uintptr_t)queue;
    does(&other, pushes_one);
    pq_free(queue, NULL, NULL);
    for (size_t i = 0; i < 60; i++) {
        members[i] = joined(kept);
        at_its_address = i == 0 || (uintptr_t)members[i] == address ? members[i] : at_its_address;
    }
    does(&other, listens_a_while);
    CHECK(pq_push(pq_own(kept), item_of(1, 2), PQ_FOREVER, NULL) == PQ_OK && notifies == 0);
    for (size_t i = 0; i < 60; i++) {
        pq_give_back(members[i]);
    }
    ends(&other);
    pq_free(kept, NULL, NULL);
}

static pthread_key_t at_end;

/* A thread's first call may come when it ends, after the library's own destructor. */
static void calls_at_end(void *unused) {
    (void)unused;
    pushes_one();
}

static void *comes_and_ends(void *calls) {
    if (calls != NULL) {
        pushes_one();
    }
    CHECK(pthread_setspecific(at_end, &at_end) == 0);
    return NULL;
}

static void threads_call_while_they_end(void) {
    CHECK(pthread_key_create(&at_end, calls_at_end) == 0);
    queue = opened(1);
    for (int i = 0; i < 2; i++) {
        ended(started(comes_and_ends, i == 0 ? NULL : &at_end));
        pq_give_back(joined(queue));
    }
    pq_journal *journal = closed(queue);
    CHECK(pq_count(journal, NULL) == 3 && pthread_key_delete(at_end) == 0);
    pq_journal_free(journal);
}

int main(void) {
    thousands_come_and_go();
    a_new_queue_is_not_taken_for_a_freed_one();
    a_joined_member_is_not_taken_for_a_freed_queue();
    threads_call_while_they_end();
    return 0;
}
