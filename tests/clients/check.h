/* What the clients of this folder have in common: a check that ends the program where it fails, threads, times, and short forms of calls.
   The common words of C99 and C++11. */
#ifndef CHECK_H
#define CHECK_H

#ifndef _GNU_SOURCE
#define _GNU_SOURCE
#endif
#include "flatpq.h"

#include <poll.h>
#include <pthread.h>
#include <stdio.h>
#include <stdlib.h>
#include <sys/wait.h>
#include <unistd.h>

#define CHECK(holds)                                                            \
    do {                                                                        \
        if (!(holds)) {                                                         \
            fprintf(stderr, "%s:%d: not so: %s\n", __FILE__, __LINE__, #holds); \
            exit(1);                                                            \
        }                                                                       \
    } while (0)

/* A cast that g++ takes too (-Wold-style-cast). */
#ifdef __cplusplus
#define CAST(type, it) static_cast<type>(it)
#else
#define CAST(type, it) ((type)(it))
#endif

/* How many requests a test makes: n, or n / $SLOWLY under valgrind or a sanitizer, for which CMakeLists.txt sets that. At least 1. */
static inline uint32_t requests(uint32_t n) {
    const char *slowly = getenv("SLOWLY");
    uint32_t by = slowly != NULL ? CAST(uint32_t, strtoul(slowly, NULL, 10)) : 1;
    return by > 1 && n > by ? n / by : by > 1 ? 1 : n;
}

/* Starts a thread, and waits for its end. */
static inline pthread_t started(void *(*work)(void *own), void *own) {
    pthread_t thread;
    CHECK(pthread_create(&thread, NULL, work, own) == 0);
    return thread;
}

static inline void *ended(pthread_t thread) {
    void *result = NULL;
    CHECK(pthread_join(thread, &result) == 0);
    return result;
}

/* Runs a function in a forked child, which an alarm ends where it hangs, and waits for the child's good end. */
static inline void in_child(void (*run)(void)) {
    int status = 0;
    const pid_t child = fork();
    CHECK(child >= 0);
    if (child == 0) {
        alarm(20);
        run();
        _exit(0);
    }
    CHECK(waitpid(child, &status, 0) == child && WIFEXITED(status) && WEXITSTATUS(status) == 0);
}

/* The time so many milliseconds from now, and a sleep of so many. */
static inline uint64_t in_ms(uint64_t milliseconds) {
    return pq_after(milliseconds * 1000000u);
}

static inline void sleep_ms(int milliseconds) {
    (void)poll(NULL, 0, milliseconds);
}

/* Whether a descriptor is readable in so many milliseconds. */
static inline int is_readable(int fd, int milliseconds) {
    struct pollfd one = { 0, POLLIN, 0 };
    one.fd = fd;
    return poll(&one, 1, milliseconds) == 1 && (one.revents & POLLIN) != 0;
}

/* A word that threads set and read without a lock, and without the order that ThreadSanitizer would take from it. */
static inline int is_set(const int *word) {
    return __atomic_load_n(word, __ATOMIC_RELAXED);
}

static inline void set(int *word, int value) {
    __atomic_store_n(word, value, __ATOMIC_RELAXED);
}

/* Opens a queue for so many members. */
static inline pq_queue *opened_as(uint32_t members, uint32_t keeping, uint32_t entries) {
    pq_options options = { 0, 0, 0, 0, 0, 0, 0 };
    pq_queue *queue = NULL;
    options.members = members;
    options.keeping = keeping;
    options.entries = entries;
    CHECK(pq_open(&options, &queue) == PQ_OK && queue != NULL);
    return queue;
}

/* The same, whose journal keeps all entries of a test. */
static inline pq_queue *opened(uint32_t members) {
    return opened_as(members, PQ_FORGETS, 65536);
}

/* Opens a queue that may have so many items, whose journal has room for so many entries. */
static inline pq_queue *opened_within(uint64_t most_items, uint32_t entries) {
    pq_options options = { 0, PQ_FILLS, 0, 0, 0, 0, 0 };
    pq_queue *queue = NULL;
    options.entries = entries;
    options.most_items = most_items;
    CHECK(pq_open(&options, &queue) == PQ_OK && queue != NULL);
    return queue;
}

/* How many items the queue has. */
static inline uint64_t size_of(pq_queue *queue) {
    uint64_t size = UINT64_MAX;
    CHECK(pq_size(pq_own(queue), PQ_FOREVER, &size, NULL) == PQ_OK);
    return size;
}

/* The most items that it has had at once. */
static inline uint64_t peak_of(pq_queue *queue) {
    uint64_t size = UINT64_MAX, peak = UINT64_MAX;
    CHECK(pq_size(pq_own(queue), PQ_FOREVER, &size, &peak) == PQ_OK && size <= peak);
    return peak;
}

/* Joins a queue that has a free member. */
static inline pq_member *joined(pq_queue *queue) {
    pq_member *member = NULL;
    CHECK(pq_join(queue, PQ_NOW, &member) == PQ_OK && member != NULL);
    return member;
}

/* Closes a queue whose members were given back, and frees it: its journal. */
static inline pq_journal *closed(pq_queue *queue) {
    pq_journal *journal = NULL;
    CHECK(pq_close(queue, &journal) == PQ_OK && journal != NULL);
    pq_free(queue, NULL, NULL);
    return journal;
}

/* The same without the journal. */
static inline void close_and_free(pq_queue *queue) {
    CHECK(pq_close(queue, NULL) == PQ_OK);
    pq_free(queue, NULL, NULL);
}

static inline pq_item item_of(uint64_t priority, uint64_t value) {
    pq_item item;
    item.priority = priority;
    item.value = value;
    return item;
}

static inline int is_item(pq_item item, uint64_t priority, uint64_t value) {
    return item.priority == priority && item.value == value;
}

#endif
