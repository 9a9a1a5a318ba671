/* Threads wait until entries are archived. What the archiver did before happens before what such a thread does after. Deadlines, and closing and
   freeing meanwhile, tests/explore tries. */
#include "../check.h"

enum { THREADS = 4 };

static void archives(pq_queue *queue, uint64_t archived) {
    pq_journal *journal = NULL;
    CHECK(pq_archive(pq_own(queue), archived, PQ_FOREVER, &journal) == PQ_OK);
    pq_journal_free(journal);
}

static void pushes(pq_queue *queue, int count) {
    for (int i = 0; i < count; i++) {
        CHECK(pq_push(pq_own(queue), item_of(1, 2), PQ_FOREVER, NULL) == PQ_OK);
    }
}

/* A refused archive counts nothing. */
static void counts_no_refused_archive(void) {
    pq_queue *queue = opened_as(1, PQ_FORGETS, 0);
    pq_journal *journal = NULL;
    CHECK(pq_archive(pq_own(queue), 1, PQ_FOREVER, &journal) == PQ_BAD_OPTION && pq_wait_archived(queue, 1, PQ_NOW) == PQ_TIMED_OUT);
    pushes(queue, 1024 + 10);
    CHECK(pq_archive(pq_own(queue), 5, PQ_FOREVER, &journal) == PQ_FORGOTTEN && pq_wait_archived(queue, 5, PQ_NOW) == PQ_TIMED_OUT);
    close_and_free(queue);
}

typedef struct waiting {
    pthread_t thread;
    pq_queue *queue;
    uint64_t number;
    pq_code code;
    int found;
} waiting;

static int written[THREADS + 1];

static void *waits(void *at) {
    waiting *own = (waiting *)at;
    own->code = pq_wait_archived(own->queue, own->number, PQ_FOREVER);
    if (own->code == PQ_OK) {
        own->found = written[own->number];
    }
    return NULL;
}

static void start_all(waiting *all, pq_queue *queue) {
    for (uint32_t i = 0; i < THREADS; i++) {
        all[i].queue = queue;
        all[i].number = i + 1;
        all[i].found = 0;
        all[i].thread = started(waits, &all[i]);
    }
    sleep_ms(20);
}

/* Each is woken once its entry is archived, and not before. */
static void are_woken(void) {
    waiting all[THREADS];
    pq_queue *queue = opened(1);
    pushes(queue, THREADS);
    start_all(all, queue);
    for (uint32_t i = 0; i < THREADS; i++) {
        written[i + 1] = (int)i + 1;
        archives(queue, i + 1);
        ended(all[i].thread);
        CHECK(all[i].code == PQ_OK && all[i].found == (int)i + 1);
    }
    close_and_free(queue);
}

int main(void) {
    counts_no_refused_archive();
    are_woken();
    return 0;
}
