/* An event loop by epoll that runs timers. One descriptor, a timer, stands for the queue. It is readable once the first item is due, another
   thread has pushed an earlier one, or the queue is shut. The other is a pipe, whose end says that no more items come. */
#define _POSIX_C_SOURCE 200809L
#include "flatpq.h"

#include <pthread.h>
#include <stdio.h>
#include <sys/epoll.h>
#include <sys/timerfd.h>
#include <time.h>
#include <unistd.h>

static pq_queue *queue;
static int ends[2];

static void *push_timers(void *unused) {
    const uint64_t milliseconds[] = { 80, 40, 100, 60 }, start = pq_now();
    for (int i = 0; i < 4; i++) {
        pq_item timer = { 0, 0 };
        timer.priority = start + milliseconds[i] * 1000000;
        timer.value = milliseconds[i];
        if (pq_push(pq_own(queue), timer, PQ_FOREVER, NULL) != PQ_OK) {
            break;
        }
    }
    close(ends[1]);
    return unused;
}

/* Runs all that are due. The last call, which finds none, sets the timer for the next one. */
static pq_code run_due(int timer) {
    pq_item item;
    pq_code code;
    while ((code = pq_take_due_or_listen(pq_own(queue), timer, &item, NULL)) == PQ_OK) {
        printf("%d ms are over\n", (int)item.value);
    }
    return code;
}

static int watch(int all, int file) {
    struct epoll_event event = { EPOLLIN | EPOLLET, { .fd = file } }; /* without EPOLLET it works too */
    return epoll_ctl(all, EPOLL_CTL_ADD, file, &event);
}

int main(void) {
    const int timer = timerfd_create(CLOCK_MONOTONIC, 0), all = epoll_create1(0);
    struct epoll_event ready;
    pthread_t thread;
    pq_code code;
    if (pipe(ends) || watch(all, timer) || watch(all, ends[0]) || pq_open(NULL, &queue) || pthread_create(&thread, NULL, push_timers, NULL)) {
        return 1;
    }
    code = run_due(timer);
    while ((code == PQ_EMPTY || code == PQ_NOT_DUE) && epoll_wait(all, &ready, 1, -1) == 1) {
        if (ready.data.fd == timer) {
            code = run_due(timer);
        } else {
            pq_shut(queue);
            close(ends[0]);
        }
    }
    pthread_join(thread, NULL);
    pq_free(queue, NULL, NULL);
    close(timer);
    close(all);
    return code == PQ_SHUT ? 0 : 1;
}
