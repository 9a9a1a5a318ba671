/* Calls whose instructions tests/tools/package counts: of one thread, and a queue of 1,000 items. A call stands in one place. */
#include "flatpq.h"

#include <stdlib.h>

#define ITEMS 1000
#define CALLS 20000
#define BATCH 64

static void need(pq_code code) {
    if (code != PQ_OK) {
        abort();
    }
}

static pq_item next_item(void) {
    static uint64_t last = 1;
    last = last * 6364136223846793005u + 1442695040888963407u;
    return (pq_item){ last >> 44, last };
}

int main(void) {
    pq_queue *queue;
    pq_member *member;
    pq_item items[BATCH];
    uint64_t size;
    size_t done;
    need(pq_open(NULL, &queue));
    need(pq_join(queue, PQ_NOW, &member));
    for (int i = 0; i < CALLS; i++) {
        need(pq_push(member, next_item(), PQ_NOW, NULL));
        if (i >= ITEMS) {
            need(pq_peek(member, items, PQ_NOW, NULL));
            need(pq_pop(member, items, PQ_NOW, NULL));
            need(pq_size(member, PQ_NOW, &size, NULL));
        }
    }
    for (int i = 0; i < CALLS / BATCH; i++) {
        for (int at = 0; at < BATCH; at++) {
            items[at] = next_item();
        }
        need(pq_push_many(member, items, BATCH, PQ_NOW, &done, NULL));
        need(pq_pop_due_many(member, UINT64_MAX, items, BATCH, PQ_NOW, &done, NULL));
    }
    return 0;
}
