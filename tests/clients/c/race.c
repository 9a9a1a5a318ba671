/* A thread writes a record once more after it has pushed its item: a race with the thread that gets the item, which ThreadSanitizer has
   to see, as no call orders the two. */
#include "../check.h"

static unsigned record;

static void *reads_record(void *queue) {
    pq_item item;
    CHECK(pq_take(pq_own((pq_queue *)queue), &item, PQ_FOREVER, NULL) == PQ_OK && record != 0);
    return NULL;
}

int main(void) {
    pq_queue *queue = opened(2);
    pthread_t thread = started(reads_record, queue);
    record = 1;
    CHECK(pq_push(pq_own(queue), item_of(1, 0), PQ_FOREVER, NULL) == PQ_OK);
    record = 2;
    ended(thread);
    close_and_free(queue);
    return 0;
}
