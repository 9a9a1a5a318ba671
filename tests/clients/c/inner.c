/* A plug-in that has the library in it, and a queue of its own (unloaded.c). */
#include "flatpq.h"

static pq_queue *queue;

pq_code inner_open(void) {
    return pq_open(NULL, &queue);
}

pq_code inner_push(void) {
    pq_item item = { 1, 2 };
    return pq_push(pq_own(queue), item, PQ_FOREVER, NULL);
}

pq_code inner_close(void) {
    pq_code code = pq_close(queue, NULL);
    pq_free(queue, NULL, NULL);
    return code;
}
