/* An event loop that runs timers. One thread waits by poll for items that other threads push, and for the first timer that is due. */
#include "flatpq.h"

#include <poll.h>
#include <pthread.h>
#include <stdio.h>
#include <sys/eventfd.h>
#include <unistd.h>

static void *push_timers(void *queue) {
    const uint64_t milliseconds[] = { 30, 10, 20, 5 };
    for (int i = 0; i < 4; i++) {
        pq_item timer = { 0, 0 };
        timer.priority = pq_after(milliseconds[i] * 1000000);
        timer.value = milliseconds[i];
        if (pq_push(pq_own(queue), timer, PQ_FOREVER, NULL) != PQ_OK) {
            return queue;
        }
    }
    return pq_shut(queue) == PQ_OK ? NULL : queue;
}

/* How many milliseconds poll may wait: until this item is due, or for ever where there is none. */
static int wait_for(pq_code code, const pq_item *first) {
    uint64_t now = pq_now();
    if (code == PQ_EMPTY) {
        return -1;
    }
    return first->priority > now ? (int)((first->priority - now) / 1000000 + 1) : 0;
}

int main(void) {
    pq_queue *queue;
    pq_item item;
    pq_code code;
    pthread_t thread;
    uint64_t count;
    struct pollfd ready = { eventfd(0, EFD_NONBLOCK), POLLIN, 0 };
    if (ready.fd < 0 || pq_open(NULL, &queue) || pthread_create(&thread, NULL, push_timers, queue)) {
        return 1;
    }
    for (;;) {
        code = pq_take_or_listen(pq_own(queue), pq_now(), &item, NULL, pq_notify_fd, (void *)(intptr_t)ready.fd);
        if (code == PQ_OK) {
            printf("%d ms are over\n", (int)item.value);
        } else if (code != PQ_EMPTY && code != PQ_NOT_DUE) {
            break;
        } else if (poll(&ready, 1, wait_for(code, &item)) == 1 && read(ready.fd, &count, sizeof count) < 0) {
            return 1;
        }
    }
    pthread_join(thread, NULL);
    pq_free(queue, NULL, NULL);
    close(ready.fd);
    return code == PQ_SHUT ? 0 : 1;
}
