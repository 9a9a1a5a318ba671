/* Two threads push three items each into one queue. Then all come out, the smallest priority first. */
#include "flatpq.h"

#include <inttypes.h>
#include <pthread.h>
#include <stdio.h>

static void *push_three(void *queue) {
    pq_item item = { 10, 7 };
    for (; item.priority <= 30; item.priority += 10) {
        if (pq_push(pq_own(queue), item, PQ_FOREVER, NULL) != PQ_OK) {
            return queue;
        }
    }
    return NULL;
}

int main(void) {
    pq_queue *queue;
    pthread_t thread;
    pq_item item;
    if (pq_open(NULL, &queue) || pthread_create(&thread, NULL, push_three, queue) || push_three(queue) || pthread_join(thread, NULL)) {
        return 1;
    }
    while (pq_pop(pq_own(queue), &item, PQ_FOREVER, NULL) == PQ_OK) {
        printf("%" PRIu64 "\n", item.priority);
    }
    pq_free(queue, NULL, NULL);
    return 0;
}
