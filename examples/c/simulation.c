/* An event simulation. Customers come to a shop with one till, which takes each for some minutes. The priority of an event is its minute,
   its value says who comes or goes. All events of one minute are taken out at once; they happen in the order in which they were put in. */
#include "flatpq.h"

#include <inttypes.h>
#include <stdio.h>
#include <stdlib.h>

enum { CUSTOMERS = 4, COMES = 0, GOES = 100, AT_ONCE = 16 };
static const uint64_t arrives[CUSTOMERS] = { 0, 1, 5, 20 };
static const uint64_t takes[CUSTOMERS] = { 4, 3, 6, 2 };

static void must(pq_code code) {
    if (code != PQ_OK) {
        fprintf(stderr, "simulation: %s\n", pq_code_text(code));
        exit(1);
    }
}

static void happens(pq_member *own, pq_item event, uint64_t *free_at) {
    uint64_t who = event.value % GOES;
    printf("minute %" PRIu64 ": customer %" PRIu64 " %s\n", event.priority, who, event.value < GOES ? "comes" : "goes");
    if (event.value < GOES) {
        pq_item end;
        *free_at = (*free_at > event.priority ? *free_at : event.priority) + takes[who];
        end.priority = *free_at;
        end.value = GOES + who;
        must(pq_push(own, end, PQ_FOREVER, NULL));
    }
}

int main(void) {
    pq_queue *queue;
    pq_member *own;
    pq_item events[AT_ONCE];
    uint64_t free_at = 0;
    size_t done;
    must(pq_open(NULL, &queue));
    own = pq_own(queue);
    for (uint64_t who = 0; who < CUSTOMERS; who++) {
        pq_item event = { arrives[who], COMES + who };
        must(pq_push(own, event, PQ_FOREVER, NULL));
    }
    while (pq_peek(own, events, PQ_FOREVER, NULL) == PQ_OK) {
        must(pq_pop_due_many(own, events[0].priority, events, AT_ONCE, PQ_FOREVER, &done, NULL));
        for (size_t i = 0; i < done; i++) {
            happens(own, events[i], &free_at);
        }
    }
    pq_free(queue, NULL, NULL);
    return 0;
}
