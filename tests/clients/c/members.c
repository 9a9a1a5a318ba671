/* Members are joined, move between threads and are given back; no two have the same place at once, and each
   entry of the journal is that of a request. A joining waits for a member until its time. A queue that is freed hands its
   items on, unless a journal has them. A queue and a member take the memory that the guide names. A program may end with all of it open. */
#include "../check.h"

#include <malloc.h>

enum { MEMBERS = 8, AT_ONCE = 16, THREADS = 1000, PLACES = 2080 };

static pq_queue *queue;
static int is_out[PLACES];

static void *comes(void *own) {
    uint32_t turn = *(const uint32_t *)own;
    pq_member *member = NULL;
    pq_item item = item_of(0, 0);
    uint64_t number = 0;
    CHECK(pq_join(queue, PQ_FOREVER, &member) == PQ_OK);
    uint32_t place = pq_place(member);
    CHECK(place < PLACES && __atomic_exchange_n(&is_out[place], 1, __ATOMIC_SEQ_CST) == 0);
    CHECK(pq_push(member, item_of(turn % 5, turn), PQ_FOREVER, &number) == PQ_OK && number >= 1);
    CHECK(pq_pop(member, &item, PQ_FOREVER, &number) == PQ_OK);
    CHECK(pq_place(member) == place && __atomic_exchange_n(&is_out[place], 0, __ATOMIC_SEQ_CST) == 1);
    pq_give_back(member);
    return NULL;
}

/* All are joined again. */
static void comes_out_again(void) {
    pq_member *members[MEMBERS], *none = NULL;
    for (size_t i = 0; i < MEMBERS; i++) {
        members[i] = joined(queue);
    }
    CHECK(pq_join(queue, PQ_NOW, &none) == PQ_ALL_JOINED);
    for (size_t i = 0; i < MEMBERS; i++) {
        pq_give_back(members[i]);
    }
}

static void threads_come_and_go(void) {
    const uint32_t threads = requests(THREADS);
    uint32_t turns[AT_ONCE];
    pthread_t running[AT_ONCE];
    pq_entry entry;
    queue = opened_as(MEMBERS, PQ_FILLS, 2 * THREADS);
    for (uint32_t begun = 0; begun < threads; begun += AT_ONCE) {
        uint32_t some = threads - begun < AT_ONCE ? threads - begun : AT_ONCE;
        for (uint32_t i = 0; i < some; i++) {
            turns[i] = begun + i;
            running[i] = started(comes, &turns[i]);
        }
        for (uint32_t i = 0; i < some; i++) {
            ended(running[i]);
        }
    }
    comes_out_again();
    pq_journal *journal = closed(queue);
    CHECK(pq_count(journal, NULL) == 2 * threads);
    for (size_t i = 0; i < 2 * threads; i++) {
        CHECK(pq_read(journal, i, &entry) == PQ_OK && entry.place < PLACES && entry.request != PQ_PEEK && entry.reply == PQ_OK);
    }
    pq_journal_free(journal);
}

/* A member that was joined here makes its calls there. */
static void *pushes(void *member) {
    CHECK(pq_push((pq_member *)member, item_of(1, 2), PQ_FOREVER, NULL) == PQ_OK);
    return NULL;
}

static void *gives_back_soon(void *member) {
    sleep_ms(30);
    pq_give_back((pq_member *)member);
    return NULL;
}

static void members_move_between_threads(void) {
    pq_queue *one = opened(1);
    pq_member *member = joined(one), *other = NULL;
    pq_item item = item_of(7, 8);
    ended(started(pushes, member));
    CHECK(pq_pop(member, &item, PQ_NOW, NULL) == PQ_OK && is_item(item, 1, 2));
    uint64_t begun = pq_now();
    CHECK(pq_join(one, in_ms(30), &other) == PQ_ALL_JOINED && other == NULL && pq_now() >= begun + 30000000);
    pthread_t thread = started(gives_back_soon, member);
    CHECK(pq_join(one, PQ_FOREVER, &other) == PQ_OK && pq_now() >= begun + 60000000);
    ended(thread);
    thread = started(gives_back_soon, other);
    CHECK(pq_join(one, in_ms(60000), &other) == PQ_OK);
    ended(thread);
    pq_give_back(other);
    close_and_free(one);
}

static void is_left(void *context, pq_item item) {
    CHECK(is_item(item, 0, 9));
    ++*(int *)context;
}

static void a_freed_queue_leaves_its_items(void) {
    for (int is_closed = 0; is_closed < 2; is_closed++) {
        pq_queue *one = opened(1);
        pq_journal *journal = NULL;
        pq_item item;
        int left = 0;
        CHECK(pq_push(pq_own(one), item_of(0, 9), PQ_FOREVER, NULL) == PQ_OK && (!is_closed || pq_close(one, &journal) == PQ_OK));
        pq_free(one, is_left, &left);
        CHECK(left == !is_closed && (!is_closed || (pq_take_left(journal, &item) == PQ_OK && is_item(item, 0, 9))));
        pq_journal_free(journal);
    }
}

static size_t memory(void) {
    const struct mallinfo2 it = mallinfo2();
    return it.uordblks + it.hblkhd;
}

/* Tools that replace malloc say 0. */
static void a_queue_takes_little_memory(void) {
    const size_t before = memory();
    pq_queue *one = opened_as(64, PQ_FORGETS, 0);
    const size_t of_queue = memory() - before;
    pq_member *member = joined(one);
    const size_t of_member = memory() - before - of_queue;
    CHECK(of_queue < 300000 && of_member < 700);
    pq_give_back(member);
    close_and_free(one);
}

/* The pointers are where tools that look for lost memory find them. */
pq_member *left_member;
pq_journal *left_journal;

static void all_is_left_open(void) {
    pq_queue *other = opened(1);
    queue = opened(2);
    left_member = joined(queue);
    CHECK(pq_push(left_member, item_of(3, 4), PQ_FOREVER, NULL) == PQ_OK);
    CHECK(pq_push(pq_own(queue), item_of(5, 6), PQ_FOREVER, NULL) == PQ_OK && pq_push(pq_own(other), item_of(5, 6), PQ_FOREVER, NULL) == PQ_OK);
    left_journal = closed(other);
}

int main(void) {
    threads_come_and_go();
    members_move_between_threads();
    a_freed_queue_leaves_its_items();
    a_queue_takes_little_memory();
    all_is_left_open();
    return 0;
}
