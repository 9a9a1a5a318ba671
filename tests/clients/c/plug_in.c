/* What c/plugged.c loads. It is linked to the shared library, as that program is, and shows one name. */
#include "plug_in.h"

extern const plug_in plugged_calls __attribute__((visibility("default")));

static pq_code push(pq_queue *queue) {
    return pq_push(pq_own(queue), item_of(5, 7), PQ_FOREVER, NULL);
}

static pq_code pop(pq_queue *queue) {
    pq_item item;
    return pq_pop(pq_own(queue), &item, PQ_FOREVER, NULL);
}

static pq_code listen_to(pq_queue *queue, int fd) {
    pq_item item;
    return pq_take_or_listen(pq_own(queue), UINT64_MAX, &item, NULL, pq_notify_fd, (void *)(intptr_t)fd);
}

static pq_code join(pq_queue *queue, pq_member **member) {
    return pq_join(queue, PQ_NOW, member);
}

const plug_in plugged_calls = { push, pop, listen_to, join, pq_shut };
