/* A compiler warns of a code that nobody looks at. */
#include "../check.h"

int main(void) {
    pq_queue *queue = opened(1);
    pq_push(pq_own(queue), item_of(1, 2), PQ_FOREVER, NULL);
    pq_free(queue, NULL, NULL);
    return 0;
}
