/* On a processor without SSE4.1 no queue is opened. The compiler's own record of what the processor has says so here. */
#include "../check.h"

/* The record of libgcc, which __builtin_cpu_supports reads, and the bit of SSE4.1 in it. */
extern struct {
    unsigned vendor, type, subtype, features[1];
} __cpu_model;
enum { SSE41 = 1 << 7 };

int main(void) {
    pq_queue *queue = (pq_queue *)&queue;
    __builtin_cpu_init();
    CHECK((__cpu_model.features[0] & SSE41) != 0 && __builtin_cpu_supports("sse4.1"));
    __cpu_model.features[0] &= ~(unsigned)SSE41;
    for (uint32_t keeping = PQ_FORGETS; keeping <= PQ_FILLS; keeping++) {
        pq_options options = { 0, 0, 0, 0, 0, 0, 0 };
        options.keeping = keeping;
        queue = (pq_queue *)&queue;
        CHECK(pq_open(&options, &queue) == PQ_PROCESSOR && queue == NULL);
    }
    CHECK(pq_open(NULL, &queue) == PQ_PROCESSOR && queue == NULL);
    __cpu_model.features[0] |= SSE41;
    close_and_free(opened(1));
    return 0;
}
