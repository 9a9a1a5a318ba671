/*
 * Forks, the processor, the clock, sleeping, barriers, and ThreadSanitizer.
 *
 * A forked child has the memory of all threads, and only the thread that forked: a lock that another thread held is held there for ever. So
 * once a process has opened a queue, its children are refused each call.
 */
#include "inside.h"

#include <errno.h>
#include <linux/futex.h>
#include <linux/membarrier.h>
#include <sched.h>
#include <sys/syscall.h>
#include <time.h>
#include <unistd.h>

void __tsan_acquire(void *address) __attribute__((weak));
void __tsan_release(void *address) __attribute__((weak));
void AnnotateIgnoreReadsBegin(const char *file, int line) __attribute__((weak));
void AnnotateIgnoreReadsEnd(const char *file, int line) __attribute__((weak));
void AnnotateIgnoreWritesBegin(const char *file, int line) __attribute__((weak));
void AnnotateIgnoreWritesEnd(const char *file, int line) __attribute__((weak));

uint32_t flatpq_special, flatpq_processors;
static pthread_once_t once = PTHREAD_ONCE_INIT;
static int sees_forks;

static void child_begins(void) {
    flatpq_special |= FORKED;
}

static void begin(void) {
    cpu_set_t processors;
    uint32_t special = __tsan_acquire != NULL ? WATCHED : 0;
    CPU_ZERO(&processors);
    flatpq_processors = sched_getaffinity(0, sizeof processors, &processors) != 0 ? CPU_SETSIZE : (uint32_t)CPU_COUNT(&processors);
    if (syscall(SYS_membarrier, MEMBARRIER_CMD_REGISTER_PRIVATE_EXPEDITED, 0) != 0) {
        special |= FENCES;
    }
    flatpq_special = special;
    sees_forks = pthread_atfork(NULL, NULL, child_begins) == 0;
}

/* A journal may be read in a forked child too. */
pq_code flatpq_may_read(void) {
    return __builtin_cpu_supports("sse4.1") ? PQ_OK : PQ_PROCESSOR;
}

pq_code flatpq_may_open(void) {
    pq_code code = flatpq_special & FORKED ? PQ_FORKED : flatpq_may_read();
    if (code != PQ_OK) {
        return code;
    }
    pthread_once(&once, begin);
    return sees_forks ? PQ_OK : PQ_NO_MEMORY;
}

int flatpq_barrier(void) {
    __atomic_thread_fence(SEQ);
    return flatpq_special & FENCES || syscall(SYS_membarrier, MEMBARRIER_CMD_PRIVATE_EXPEDITED, 0) == 0;
}

uint64_t pq_now(void) {
    struct timespec now;
    clock_gettime(CLOCK_MONOTONIC, &now);
    return (uint64_t)now.tv_sec * 1000000000u + (uint64_t)now.tv_nsec;
}

uint64_t pq_after(uint64_t nanoseconds) {
    uint64_t now = pq_now();
    return nanoseconds < PQ_FOREVER - now ? now + nanoseconds : PQ_FOREVER;
}

int flatpq_is_late(uint64_t until) {
    return until != PQ_FOREVER && (until == PQ_NOW || pq_now() >= until);
}

static struct timespec time_of(uint64_t nanoseconds) {
    const uint64_t second = 1000000000;
    struct timespec time = { (time_t)(nanoseconds / second), (long)(nanoseconds % second) };
    return time;
}

/* The function syscall is no cancellation point. */
int flatpq_sleep(const uint32_t *word, uint32_t seen, uint64_t until) {
    const uint64_t farthest = 1000000000000000;
    while (__atomic_load_n(word, SEQ) == seen) {
        uint64_t now = pq_now(), end = until > now + farthest ? now + farthest : until;
        struct timespec time = time_of(end);
        if (now >= until) {
            return 1;
        }
        /* FUTEX_WAIT_BITSET takes a time of CLOCK_MONOTONIC, and not how long. */
        syscall(SYS_futex, word, FUTEX_WAIT_BITSET | FUTEX_PRIVATE_FLAG, seen, &time, NULL, FUTEX_BITSET_MATCH_ANY);
    }
    return 0;
}

/* Linux 5.16 has futex_waitv, which headers may be too old to declare. It ends a wait in time, which FUTEX_WAIT does some 50 us later, to spare
   wakes of the processor. */
#ifndef SYS_futex_waitv
#define SYS_futex_waitv 449
#endif
struct waited {
    uint64_t value, address;
    uint32_t flags, reserved;
};

static int naps_exactly(const uint32_t *nobody, uint64_t until) {
    const uint32_t of_32_bits = 2;
    struct waited word = { *nobody, (uint64_t)(uintptr_t)nobody, of_32_bits | FUTEX_PRIVATE_FLAG, 0 };
    struct timespec end = time_of(until);
    return syscall(SYS_futex_waitv, &word, 1, 0, &end, CLOCK_MONOTONIC) >= 0 || errno == ETIMEDOUT || errno == EINTR;
}

void flatpq_nap(uint64_t until) {
    static uint32_t is_refused; /* the system has no futex_waitv */
    const uint64_t late = 50000;
    const uint32_t nobody = 0;
    if (__atomic_load_n(&is_refused, __ATOMIC_RELAXED) || !naps_exactly(&nobody, until)) {
        uint64_t end = pq_now() + late;
        struct timespec time = time_of(until > end ? until - end : 1);
        __atomic_store_n(&is_refused, 1, __ATOMIC_RELAXED);
        syscall(SYS_futex, &nobody, FUTEX_WAIT | FUTEX_PRIVATE_FLAG, 0, &time, NULL, 0);
    }
}

void flatpq_wake(const uint32_t *word, int most) {
    syscall(SYS_futex, word, FUTEX_WAKE | FUTEX_PRIVATE_FLAG, most, NULL, NULL, 0);
}

/* A push releases a byte of this table by the item's value, which stays while the item is moved, and a call that returns the item acquires it.
   Values that come to the same number share a byte. A move releases a byte for all items, as it has yet to find its own. */
static char watched[4096], moved;

static void *byte_of(pq_item item) {
    return &watched[(uint32_t)(item.value ^ item.value >> 32) * 2246822519u >> 20];
}

void flatpq_tsan_push(pq_item item) {
    __tsan_release(byte_of(item));
}

void flatpq_tsan_pop(pq_item item) {
    __tsan_acquire(byte_of(item));
    __tsan_acquire(&moved);
}

void flatpq_tsan_move(void) {
    __tsan_release(&moved);
}

void flatpq_tsan_archive(pq_queue *queue) {
    __tsan_release(&queue->archived);
}

void flatpq_tsan_archived(pq_queue *queue) {
    __tsan_acquire(&queue->archived);
}

void flatpq_tsan_ignore(int begins) {
    if (begins) {
        AnnotateIgnoreReadsBegin(__FILE__, __LINE__);
        AnnotateIgnoreWritesBegin(__FILE__, __LINE__);
    } else {
        AnnotateIgnoreWritesEnd(__FILE__, __LINE__);
        AnnotateIgnoreReadsEnd(__FILE__, __LINE__);
    }
}

uint32_t pq_version(void) {
    return PQ_VERSION;
}
