/* Where the language has [[nodiscard]], a program may drop a code on purpose. The code of pq_shut may be dropped without a word. */
#include "../check.h"

int main(void) {
    pq_queue *queue = opened(1);
    (void)pq_push(pq_own(queue), item_of(1, 2), PQ_FOREVER, NULL);
    pq_shut(queue);
    pq_free(queue, NULL, NULL);
    return 0;
}
