/*
 * Descriptors of events and timers, and what else the wrappers call of the system: the linker has each such call here (--wrap). A descriptor has a
 * number that no other has in an execution, so one that is used after its close shows.
 */
#include "explore.h"

#include <errno.h>
#include <stdarg.h>
#include <string.h>
#include <sys/eventfd.h>
#include <sys/syscall.h>
#include <unistd.h>

enum { FIRST = 1000, MOST = 8 };

static struct {
    enum { UNUSED, EVENT, TIMER, CLOSED_NOW } kind;
    uint32_t count;
    uint64_t time;
    const fiber *by; /* who wrote it last */
} all[MOST];
static int made;

int __real_close(int descriptor);
int __real_fcntl(int descriptor, int command, ...);
ssize_t __real_read(int descriptor, void *to, size_t room);
long __real_syscall(long number, ...);
int __real_clock_gettime(clockid_t clock, struct timespec *time);
pq_code __real_pq_open(const pq_options *options, pq_queue **opened);
void __real_pq_give_back(pq_member *member);

void descriptors_begin(void) {
    made = 0;
}

void descriptors_end(void) {
    for (int i = 0; i < made; i++) {
        if (all[i].kind != CLOSED_NOW) {
            fail("descriptor %d is left open", FIRST + i);
        }
    }
}

static int make(int kind, uint32_t count) {
    if (made == MOST) {
        fail("an execution has more than %d descriptors", MOST);
    }
    all[made].kind = kind;
    all[made].count = count;
    all[made].time = PQ_FOREVER;
    all[made].by = NULL;
    return FIRST + made++;
}

/* The place of one that is used: before a step of this access to it. */
static int used_by(const char *what, int descriptor, enum access access) {
    const int i = descriptor - FIRST;
    if (i < 0 || i >= made) {
        fail("%s: no descriptor has the number %d", what, descriptor);
    }
    scheduler_point(what, &all[i].count, access, __FILE__, __LINE__);
    if (all[i].kind == CLOSED_NOW) {
        fail("%s: descriptor %d is closed", what, descriptor);
    }
    return i;
}

uint64_t *timer_of(int descriptor) {
    return descriptor < FIRST ? &timers[descriptor] : &all[used_by("set the timer", descriptor, READS)].time;
}

long descriptor_write(int descriptor) {
    const int i = used_by("write the event", descriptor, WRITES);
    all[i].count++;
    all[i].by = me;
    wake_word(&all[i].count);
    return sizeof(uint64_t);
}

/* After a notify by its own thread that naps: another may have the lock for long. */
int await_readable(int descriptor, uint64_t until) {
    const uint64_t soon = 100000;
    const int i = used_by("wait for the descriptor", descriptor, READS);
    if (all[i].kind == EVENT && all[i].count > 0 && all[i].by == me) {
        nap_for(soon);
    }
    if (all[i].kind == EVENT) {
        sleep_at(&all[i].count, 0, until);
        return all[i].count > 0;
    }
    scheduler_point("wait for the timer", &all[i].time, READS, __FILE__, __LINE__);
    while (all[i].time > now && is_to_come(until)) {
        block(SLEEPS, &all[i].time, all[i].time < until ? all[i].time : until);
    }
    return all[i].time <= now;
}

/*
 * In place of the system's.
 */

int __wrap_eventfd(unsigned count, int flags) {
    return make(EVENT, count);
}

int __wrap_timerfd_create(int clock, int flags) {
    return make(TIMER, 0);
}

int __wrap_timerfd_settime(int timer, int flags, const struct itimerspec *time, struct itimerspec *before) {
    return system_set_timer(timer, time);
}

int __wrap_close(int descriptor) {
    if (descriptor < FIRST) {
        return __real_close(descriptor);
    }
    all[used_by("close the descriptor", descriptor, WRITES)].kind = CLOSED_NOW;
    return 0;
}

/* A runtime looks whether a descriptor is open before it closes it. */
int __wrap_fcntl(int descriptor, int command, ...) {
    long given;
    va_list words;
    va_start(words, command);
    given = va_arg(words, long);
    va_end(words);
    return descriptor < FIRST ? __real_fcntl(descriptor, command, given) : 0;
}

ssize_t __wrap_read(int descriptor, void *to, size_t room) {
    uint64_t count;
    int i;
    if (descriptor < FIRST) {
        return __real_read(descriptor, to, room);
    }
    i = used_by("read the event", descriptor, WRITES);
    count = all[i].count;
    if (count == 0) {
        errno = EAGAIN;
        return -1;
    }
    memcpy(to, &count, sizeof count);
    all[i].count = 0;
    return sizeof count;
}

/* Of what the wrappers and their runtimes call by number, reads and closes are of descriptors. */
long __wrap_syscall(long number, ...) {
    long given[6];
    va_list words;
    va_start(words, number);
    for (int i = 0; i < 6; i++) {
        given[i] = va_arg(words, long);
    }
    va_end(words);
    if (number == SYS_read) {
        return __wrap_read((int)given[0], (void *)given[1], (size_t)given[2]);
    }
    if (number == SYS_close) {
        return __wrap_close((int)given[0]);
    }
    return __real_syscall(number, given[0], given[1], given[2], given[3], given[4], given[5]);
}

int __wrap_clock_gettime(clockid_t clock, struct timespec *time) {
    return clock == CLOCK_MONOTONIC ? system_clock(time) : __real_clock_gettime(clock, time);
}

/* So the explorer knows the queue that a wrapper opens. */
pq_code __wrap_pq_open(const pq_options *options, pq_queue **opened) {
    pq_code code = __real_pq_open(options, opened);
    queue = code == PQ_OK ? *opened : NULL;
    return code;
}

/* A future may give its member away and get one again in one poll: that is another use (proved.c). */
void __wrap_pq_give_back(pq_member *member) {
    __real_pq_give_back(member);
    if (me != NULL) {
        me->calls++;
    }
}
