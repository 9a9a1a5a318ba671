/*
 * Each thread's own members, and which member a call uses.
 *
 * A thread has a record of each of its own members. It alone writes `busy` there, at the begin and the end of each call, and takes no lock.
 * A thread that needs a member takes an idle one over: it writes `taken` in that record, makes a barrier in all threads, and reads `busy`. The
 * owner writes `busy` first, and then reads `taken`. So one of the two sees what the other wrote. An owner that sees it goes on under the lock.
 *
 * While a thread waits for a member all records of the queue are marked WANTED. The mark of a record came before a look at `busy`, which found
 * it set, or the record is new and busy. So each call that ends sees the mark, and hands its member over to the first thread that waits.
 *
 * A record that is TAKEN is its thread's alone, and has no member: the thread's next call gets it one. The thread frees it when it makes another, or
 * ends, unless it listens. A queue is freed after all of its records were TAKEN. So a new queue at the same address finds a record without a member.
 */
#include "inside.h"

#include <dlfcn.h>
#include <stdlib.h>

enum { LISTS = 64 };

static own no_own;
__thread thread flatpq_thread __attribute__((tls_model("initial-exec"))) = { &no_own, NULL };

static own **list_of(const pq_member *shared) {
    return &flatpq_thread.owns[((uint64_t)(uintptr_t)shared * 0x9e3779b97f4a7c15u) >> 58];
}

static own *find(const pq_member *shared) {
    own *it = flatpq_thread.owns != NULL ? *list_of(shared) : NULL;
    while (it != NULL && it->shared != shared) {
        it = it->next;
    }
    return it;
}

/*
 * The records of a queue, under the lock.
 */

void flatpq_mark(pq_queue *queue, uint32_t taken) {
    queue->is_marked = taken != 0;
    for (own *it = queue->owns; it != NULL; it = it->next_of_queue) {
        __atomic_store_n(&it->taken, taken, SEQ);
    }
}

/* The thread is in a call by it. */
void flatpq_put_in(pq_queue *queue, own *record, pq_member *member) {
    record->member = member;
    record->queue = queue;
    record->place = member->place;
    record->next_of_queue = queue->owns;
    record->at = &queue->owns;
    if (queue->owns != NULL) {
        queue->owns->at = &record->next_of_queue;
    }
    queue->owns = record;
    __atomic_store_n(&record->taken, queue->is_marked ? WANTED : 0, SEQ);
}

/* The record is its thread's alone after this: the member that it had. */
static pq_member *take_out(own *record) {
    pq_member *member = record->member;
    *record->at = record->next_of_queue;
    if (record->next_of_queue != NULL) {
        record->next_of_queue->at = record->at;
    }
    __atomic_store_n(&record->taken, TAKEN, SEQ);
    return member;
}

/* The record is marked, and a barrier was made. */
static int is_idle(const own *record) {
    return __atomic_load_n(&record->busy, SEQ) == 0;
}

pq_code flatpq_take_over(pq_queue *queue, pq_member **member) {
    if (queue->owns == NULL) {
        return PQ_ALL_JOINED;
    }
    flatpq_mark(queue, WANTED);
    if (!flatpq_barrier()) {
        return PQ_ALL_JOINED;
    }
    for (own *it = queue->owns; it != NULL; it = it->next_of_queue) {
        if (is_idle(it)) {
            *member = take_out(it);
            return PQ_OK;
        }
    }
    return PQ_ALL_JOINED;
}

/* Takes all idle members over, and gives them back. Without a barrier it is the thread's own. */
void flatpq_take_back(pq_queue *queue) {
    const own *mine = find(&queue->own);
    own *next;
    int has_barrier;
    flatpq_mark(queue, WANTED);
    has_barrier = flatpq_barrier();
    for (own *it = queue->owns; it != NULL; it = next) {
        next = it->next_of_queue;
        if ((has_barrier || it == mine) && is_idle(it)) {
            flatpq_release(queue, take_out(it));
        }
    }
}

/*
 * The records of a thread.
 */

static int is_taken(const own *it) {
    return __atomic_load_n(&it->taken, __ATOMIC_ACQUIRE) == TAKEN;
}

/* Frees records that are TAKEN, and do not listen. */
static void forget_taken(void) {
    for (int i = 0; i < LISTS; i++) {
        own **at = &flatpq_thread.owns[i];
        while (*at != NULL) {
            own *it = *at;
            if (is_taken(it) && !it->listens) {
                *at = it->next;
                free(it);
            } else {
                at = &it->next;
            }
        }
    }
    flatpq_thread.last = &no_own;
}

/* Begins a call by a record that another thread wants or took over. 0: it took it over. */
static int enter_under_lock(own *it) {
    int has_it;
    pthread_mutex_lock(&flatpq_members);
    has_it = !is_taken(it);
    pthread_mutex_unlock(&flatpq_members);
    return has_it;
}

static int enter(own *it) {
    return flatpq_enter(it, flatpq_special) || enter_under_lock(it);
}

/* Gives the member of a record back. A function that is called with an item that was left may make calls by other records, and so free this one.
   The record is not entered, so a queue may be closed while threads end. */
static void leave(own *it) {
    if (it->listens) {
        pq_member *shared = it->shared;
        pq_unlisten(shared);
        it = find(shared);
    }
    pthread_mutex_lock(&flatpq_members);
    if (it == NULL || is_taken(it)) {
        pthread_mutex_unlock(&flatpq_members);
    } else {
        pq_queue *queue = it->queue;
        flatpq_release(queue, take_out(it));
        flatpq_unlock(queue);
    }
    forget_taken();
}

/* Gives the members of a thread back: 0 if it has none. */
static int leave_all(void) {
    int found = 0;
    for (int i = 0; i < LISTS; i++) {
        while (flatpq_thread.owns[i] != NULL) {
            leave(flatpq_thread.owns[i]);
            found = 1;
        }
    }
    return found;
}

static void thread_ends(void *unused) {
    (void)unused;
    if (flatpq_thread.owns != NULL && (flatpq_special & FORKED) == 0) {
        while (leave_all()) {
        }
        free(flatpq_thread.owns);
        flatpq_thread.owns = NULL;
    }
}

static pthread_key_t at_end;
static pthread_once_t once = PTHREAD_ONCE_INIT;
static int has_key;

static void make_key(void) {
    has_key = pthread_key_create(&at_end, thread_ends) == 0;
}

/* A program without a loader has none of these. dlopen is found by its name, as a static program is warned of it. */
extern __typeof__(dladdr) dladdr __attribute__((weak));
extern __typeof__(dlsym) dlsym __attribute__((weak));

/* The plug-in that has the library in it stays loaded: threads end with a function of the library. No thread waits for the one that sees to
   this, as that waits for the loader, in which another may be that calls the library. */
static void stay_loaded(void) {
    static uint32_t stays;
    Dl_info object;
    __typeof__(dlopen) *loads;
    if (__atomic_exchange_n(&stays, 1, SEQ) == 0 && dladdr != NULL && dlsym != NULL && dladdr(&flatpq_members, &object) != 0) {
        *(void **)&loads = dlsym(RTLD_DEFAULT, "dlopen");
        if (loads != NULL) {
            loads(object.dli_fname, RTLD_LAZY | RTLD_NOLOAD | RTLD_NODELETE);
        }
    }
}

/* A record for this thread, whose end gives the member back: the system makes another round of destructors where one sets the key again. */
static own *new_record(pq_member *shared) {
    own *made;
    pthread_once(&once, make_key);
    stay_loaded();
    if (!has_key || pthread_setspecific(at_end, &flatpq_thread) != 0) {
        return NULL;
    }
    if (flatpq_thread.owns == NULL && (flatpq_thread.owns = calloc(LISTS, sizeof(own *))) == NULL) {
        return NULL;
    }
    forget_taken();
    if ((made = aligned_alloc(_Alignof(own), sizeof(own))) != NULL) {
        const own empty = { .shared = shared, .taken = TAKEN, .next = *list_of(shared) };
        *made = empty;
        *list_of(shared) = made;
    }
    return made;
}

pq_code flatpq_begin_own(pq_member *shared, uint64_t until, own **mine) {
    own *it = find(shared);
    if (it == NULL && (it = new_record(shared)) == NULL) {
        return PQ_NO_MEMORY;
    }
    if (!enter(it)) {
        pq_member *member;
        pq_code code = flatpq_get_member(shared->queue, until, it, &member);
        if (code != PQ_OK) {
            return code == PQ_ALL_JOINED ? PQ_TIMED_OUT : code;
        }
    }
    flatpq_thread.last = it;
    *mine = it;
    return PQ_OK;
}

/* Ends a call by a member that another thread wants or took over. */
COLD void flatpq_end_own(own *it) {
    pq_queue *queue;
    pthread_mutex_lock(&flatpq_members);
    if (is_taken(it)) {
        pthread_mutex_unlock(&flatpq_members);
        return;
    }
    queue = it->queue;
    if (it->taken == WANTED) {
        flatpq_release(queue, take_out(it));
    }
    flatpq_unlock(queue);
}

pq_member *pq_own(pq_queue *queue) {
    return &queue->own;
}

void pq_leave(pq_queue *queue) {
    own *it = flatpq_special & FORKED ? NULL : find(&queue->own);
    if (it != NULL) {
        leave(it);
    }
}

own *flatpq_own_of(const pq_member *shared) {
    return find(shared);
}

uint32_t pq_place(pq_member *member) {
    if (member == NULL || flatpq_special & FORKED) {
        return UINT32_MAX;
    }
    if (member->is_shared) {
        const own *it = find(member);
        return it != NULL && !is_taken(it) ? it->place : UINT32_MAX;
    }
    return member->place;
}
