/* Threads call many queues by pq_own, each with fewer members than threads: each queue has its own items, in their order, and each journal
   the requests of its queue alone. */
#include "../check.h"

enum { QUEUES = 100, THREADS = 4, MEMBERS = 2, ROUNDS = 10 };

static pq_queue *queues[QUEUES];

/* Pushes an item to each queue, which says by whom, of which round and for which queue it is; and leaves some of the queues. */
static void *pushes_to_all(void *own) {
    const uint64_t thread = *(const uint64_t *)own;
    for (uint64_t round = 0; round < ROUNDS; round++) {
        for (uint64_t i = 0; i < QUEUES; i++) {
            CHECK(pq_push(pq_own(queues[i]), item_of(round, thread * QUEUES + i), PQ_FOREVER, NULL) == PQ_OK);
            if ((i + round) % 9 == 0) {
                pq_leave(queues[i]);
                CHECK(pq_place(pq_own(queues[i])) == UINT32_MAX);
            }
        }
    }
    return NULL;
}

static void has_its_items(pq_queue *queue, uint64_t index) {
    uint64_t round, sum;
    pq_item item = item_of(0, 0);
    for (round = 0; round < ROUNDS; round++) {
        sum = 0;
        for (uint64_t thread = 0; thread < THREADS; thread++) {
            CHECK(pq_pop(pq_own(queue), &item, PQ_FOREVER, NULL) == PQ_OK && item.priority == round && item.value % QUEUES == index);
            sum += item.value / QUEUES;
        }
        CHECK(sum == THREADS * (THREADS - 1) / 2);
    }
    CHECK(pq_pop(pq_own(queue), &item, PQ_FOREVER, NULL) == PQ_EMPTY);
}

int main(void) {
    uint64_t numbers[THREADS];
    pthread_t threads[THREADS];
    for (size_t i = 0; i < QUEUES; i++) {
        queues[i] = opened_as(MEMBERS, PQ_FILLS, 2 * THREADS * ROUNDS + 1);
    }
    for (uint64_t i = 0; i < THREADS; i++) {
        numbers[i] = i;
        threads[i] = started(pushes_to_all, &numbers[i]);
    }
    for (size_t i = 0; i < THREADS; i++) {
        ended(threads[i]);
    }
    for (size_t i = 0; i < QUEUES; i++) {
        has_its_items(queues[i], i);
    }
    /* This thread has a member of each queue; some are closed, others freed. */
    for (size_t i = 0; i < QUEUES; i++) {
        CHECK(pq_place(pq_own(queues[i])) != UINT32_MAX);
        if (i % 3 == 0) {
            pq_free(queues[i], NULL, NULL);
        } else {
            pq_journal *journal = closed(queues[i]);
            CHECK(pq_count(journal, NULL) == 2 * THREADS * ROUNDS + 1);
            pq_journal_free(journal);
        }
    }
    return 0;
}
