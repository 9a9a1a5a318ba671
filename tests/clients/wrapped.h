/* A thread that holds a queue's lock. It pushes an item, and stops where the push asks for memory, which it does with the lock.
   One source of a client includes this; CMakeLists.txt links it with WRAPS malloc, so that the library's malloc comes here. */
#ifndef WRAPPED_H
#define WRAPPED_H

#include "check.h"

#ifdef __cplusplus
extern "C" {
#endif
void *__real_malloc(size_t size);
void *__wrap_malloc(size_t size);
#ifdef __cplusplus
}
#endif

enum holds { HOLDS_NOTHING = 0, HOLDS_AND_STOPS = 1 };

/* What the calling thread does at its next request for memory; whether the holder has the lock, and whether it is to let it go. */
static __thread enum holds wrapped_next;
static int wrapped_holds, wrapped_lets_go;

/* The thread asks for memory. */
static inline void wrapped_asks(void) {
    enum holds next = wrapped_next;
    wrapped_next = HOLDS_NOTHING;
    if (next != HOLDS_NOTHING) {
        __atomic_store_n(&wrapped_holds, 1, __ATOMIC_RELEASE);
    }
    while (next == HOLDS_AND_STOPS && !__atomic_load_n(&wrapped_lets_go, __ATOMIC_ACQUIRE)) {
        sleep_ms(1);
    }
}

void *__wrap_malloc(size_t size) {
    wrapped_asks();
    return __real_malloc(size);
}

/* One holder at a time. `pushed` is how many items it has pushed, of priority 1 and value 100, the one with which it stops among them. */
typedef struct holder {
    pthread_t thread;
    pq_member *member;
    enum holds next;
    uint32_t pushed;
} holder;

static inline void *holder_pushes(void *own) {
    holder *it = CAST(holder *, own);
    wrapped_next = it->next;
    while (wrapped_next != HOLDS_NOTHING) {
        it->pushed++;
        CHECK(pq_push(it->member, item_of(1, 100), PQ_FOREVER, NULL) == PQ_OK);
    }
    return NULL;
}

/* Has a thread take the lock by a member of its own, and keep it. */
static inline void hold(holder *it, pq_queue *queue, enum holds next) {
    it->member = joined(queue);
    it->next = next;
    it->pushed = 0;
    __atomic_store_n(&wrapped_holds, 0, __ATOMIC_RELEASE);
    __atomic_store_n(&wrapped_lets_go, 0, __ATOMIC_RELEASE);
    it->thread = started(holder_pushes, it);
    while (!__atomic_load_n(&wrapped_holds, __ATOMIC_ACQUIRE)) {
        sleep_ms(1);
    }
}

/* The holder lets the lock go, ends its push, and gives its member back. */
static inline void let_go(holder *it) {
    __atomic_store_n(&wrapped_lets_go, 1, __ATOMIC_RELEASE);
    ended(it->thread);
    pq_give_back(it->member);
}

#endif
