/* A thread writes a record, and then peeks at the queue: a race with the thread that gets an item that another one pushed, as a peek hands
   nothing on. ThreadSanitizer has to see it. */
#include "../check.h"

#include <sched.h>

static unsigned record;
static int has_peeked;

static void *writes_and_peeks(void *member) {
    pq_item item;
    record = 1;
    CHECK(pq_peek((pq_member *)member, &item, PQ_FOREVER, NULL) == PQ_OK && is_item(item, 0, 0));
    set(&has_peeked, 1);
    return NULL;
}

int main(void) {
    pq_queue *queue = opened(2);
    pq_member *first = joined(queue), *second = joined(queue);
    pq_item item;
    CHECK(pq_push(first, item_of(0, 0), PQ_FOREVER, NULL) == PQ_OK);
    pthread_t thread = started(writes_and_peeks, second);
    while (!is_set(&has_peeked)) {
        sched_yield();
    }
    CHECK(pq_pop(first, &item, PQ_FOREVER, NULL) == PQ_OK && is_item(item, 0, 0) && record == 1);
    ended(thread);
    pq_give_back(first);
    pq_give_back(second);
    close_and_free(queue);
    return 0;
}
