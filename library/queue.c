/*
 * Queues and their members: opening, joining, giving back, closing, freeing.
 *
 * The proved queue's own handle is in one call at a time: under the lock. Nothing waits under it, and the longest that happens there is one
 * round of requests, in a joining.
 */
#include "inside.h"

#include <stdlib.h>
#include <string.h>

pthread_mutex_t flatpq_members = PTHREAD_MUTEX_INITIALIZER;

static uint32_t or_else(uint32_t number, uint32_t usual) {
    return number != 0 ? number : usual;
}

static void close_journal(core journal) {
    pq_code code = LEAVE_OUT(pq_core_journal_close(&journal));
    (void)code;
}

/* How many entries memory keeps, or the journal has room for. */
static uint32_t entries_of(const pq_options *asked) {
    const uint32_t forgets = 1024, refuses = 65536;
    switch (asked->keeping) {
    case PQ_FORGETS:
        return or_else(asked->entries, forgets);
    case PQ_REFUSES:
        return or_else(asked->entries, refuses);
    default:
        return asked->entries;
    }
}

pq_code pq_open(const pq_options *options, pq_queue **queue) {
    const uint32_t most_members = 64;
    const pq_options none = { 0, 0, 0, 0, 0, 0, 0 };
    const pq_options *asked = options != NULL ? options : &none;
    uint32_t members = or_else(asked->members, most_members);
    pq_queue *made;
    pq_code code = flatpq_may_open();
    *queue = NULL;
    if (code != PQ_OK) {
        return code;
    }
    if (members > most_members || asked->keeping > PQ_FILLS || asked->tickets > 1) {
        return PQ_BAD_OPTION;
    }
    if ((made = aligned_alloc(_Alignof(pq_queue), sizeof *made)) == NULL) {
        return PQ_NO_MEMORY;
    }
    memset(made, 0, sizeof *made);
    code = LEAVE_OUT(pq_core_open(members, asked->keeping, entries_of(asked), asked->most_items, asked->tickets, &made->proved));
    if (code != PQ_OK) {
        free(made);
        return code;
    }
    made->time_zero = asked->time_zero;
    made->time_unit = asked->time_unit != 0 ? asked->time_unit : 1;
    made->most_items = asked->most_items;
    made->members = members;
    made->lock = &flatpq_members;
    made->wanted_end = &made->wanted;
    made->own.queue = made;
    made->own.is_shared = 1;
    made->own.has_tickets = asked->tickets != 0;
    *queue = made;
    return PQ_OK;
}

/* Ends a queue that the program has freed, and that no thread uses. `left` may call the queue, which is closed then. */
static void end(pq_queue *queue) {
    core journal = NULL;
    pq_item item;
    pq_code code = queue->is_closed ? PQ_CLOSED : LEAVE_OUT(pq_core_close(&queue->proved, &journal));
    __atomic_store_n(&queue->is_closed, 1, SEQ);
    while (code == PQ_OK && queue->left != NULL && LEAVE_OUT(pq_core_take(&journal, &item)) == PQ_OK) {
        if (IS_WATCHED) {
            flatpq_tsan_pop(item);
        }
        queue->left(queue->left_context, item);
    }
    if (code == PQ_OK) {
        close_journal(journal);
    }
    while (queue->spare != NULL) {
        pq_member *member = queue->spare;
        queue->spare = member->next;
        free(member);
    }
    free(queue);
}

void flatpq_unlock(pq_queue *queue) {
    int ends = queue->is_freed && !queue->is_ending && queue->out == 0 && queue->staying == 0 && queue->waiting == 0;
    int is_wanted = queue->is_freed || queue->wanted != NULL;
    queue->is_ending |= (uint32_t)ends;
    if (!ends && is_wanted != (int)queue->is_marked) {
        flatpq_mark(queue, is_wanted ? WANTED : 0);
    }
    pthread_mutex_unlock(&flatpq_members);
    if (ends) {
        end(queue);
    }
}

void flatpq_count(pq_queue *queue, uint32_t *count, uint32_t more) {
    pthread_mutex_lock(&flatpq_members);
    __atomic_fetch_add(count, more, SEQ);
    flatpq_unlock(queue);
}

/*
 * Members, under the lock.
 */

static void count_out(pq_queue *queue, uint32_t out) {
    __atomic_store_n(&queue->out, out, __ATOMIC_RELAXED); /* a call that naps reads it without the lock */
}

/* A member in no use. Its memory is freed with the queue: a thread that wakes a member may still read it after that was given back. */
static pq_member *new_member(pq_queue *queue) {
    pq_member *made = queue->spare;
    if (made == NULL) {
        made = aligned_alloc(_Alignof(pq_member), sizeof *made);
        if (made == NULL) {
            return NULL;
        }
    } else {
        queue->spare = made->next;
    }
    memset(made, 0, sizeof *made);
    made->queue = queue;
    made->has_tickets = queue->own.has_tickets;
    return made;
}

static pq_code join(pq_queue *queue, pq_member **member) {
    pq_member *made = new_member(queue);
    pq_code code;
    if (made == NULL) {
        return PQ_NO_MEMORY;
    }
    code = LEAVE_OUT(pq_core_join(&queue->proved, &made->proved, (uint64_t)(uintptr_t)queue));
    if (code != PQ_OK) {
        made->next = queue->spare;
        queue->spare = made;
        return code;
    }
    code = pq_core_place(&made->proved, &made->place);
    count_out(queue, queue->out + 1);
    *member = made;
    return code;
}

static pq_code find_member(pq_queue *queue, pq_member **member) {
    pq_code code = join(queue, member);
    return code == PQ_ALL_JOINED ? flatpq_take_over(queue, member) : code;
}

/* A thread that waits for a member. */
typedef struct wanting {
    struct wanting *next, **at; /* in the order in which they came */
    own *record;                /* NULL where it joins */
    pq_member *got;
    pq_code code;
    uint32_t is_served; /* the thread sleeps while this is 0 */
} wanting;

static void begin_wanting(pq_queue *queue, wanting *it) {
    it->at = queue->wanted_end;
    *queue->wanted_end = it;
    queue->wanted_end = &it->next;
}

static void end_wanting(pq_queue *queue, const wanting *it) {
    *it->at = it->next;
    *(it->next != NULL ? &it->next->at : &queue->wanted_end) = it->at;
}

/* The first thread that waits for a member gets this one, or is refused by this code. It goes on without the lock. */
static void serve(pq_queue *queue, pq_code code, pq_member *member) {
    wanting *first = queue->wanted;
    end_wanting(queue, first);
    first->code = code;
    first->got = member;
    if (code == PQ_OK && first->record != NULL) {
        flatpq_put_in(queue, first->record, member);
    }
    __atomic_store_n(&first->is_served, 1, SEQ);
    flatpq_wake(&first->is_served, 1);
}

static void give_back(pq_queue *queue, pq_member *member) {
    pq_code code = LEAVE_OUT(pq_core_give_back(&queue->proved, &member->proved, (uint64_t)(uintptr_t)queue));
    (void)code;
    member->next = queue->spare;
    queue->spare = member;
    count_out(queue, queue->out - 1);
}

/* The member is in no call. The first thread that waits for one gets it. */
void flatpq_release(pq_queue *queue, pq_member *member) {
    if (queue->wanted != NULL) {
        serve(queue, PQ_OK, member);
    } else {
        give_back(queue, member);
    }
}

static void refuse_all(pq_queue *queue) {
    while (queue->wanted != NULL) {
        serve(queue, PQ_CLOSED, NULL);
    }
}

/* Waits for a member until then. 1: another thread served this one, and it does not have the lock; the queue may be gone if the code is
   PQ_CLOSED. */
static int wait_for_member(pq_queue *queue, uint64_t until, wanting *it) {
    begin_wanting(queue, it);
    if (!queue->is_marked) {
        flatpq_mark(queue, WANTED);
    }
    do {
        pthread_mutex_unlock(&flatpq_members);
        flatpq_sleep(&it->is_served, 0, until);
        if (__atomic_load_n(&it->is_served, SEQ)) {
            return 1;
        }
        pthread_mutex_lock(&flatpq_members);
        if (it->is_served) {
            pthread_mutex_unlock(&flatpq_members);
            return 1;
        }
    } while (!flatpq_is_late(until));
    end_wanting(queue, it);
    return 0;
}

/* Gets a member, for the thread of this record or to be joined. A thread that comes while others wait is served after them. */
pq_code flatpq_get_member(pq_queue *queue, uint64_t until, own *record, pq_member **member) {
    wanting it = { NULL, NULL, record, NULL, PQ_ALL_JOINED, 0 };
    int is_served = 0;
    if (queue->lock != &flatpq_members) {
        return PQ_NO_MEMBER;
    }
    pthread_mutex_lock(&flatpq_members);
    if (queue->is_closed) {
        it.code = PQ_CLOSED;
    } else if (queue->wanted == NULL) {
        it.code = find_member(queue, &it.got);
    }
    if (it.code == PQ_ALL_JOINED && until != PQ_NOW) {
        is_served = wait_for_member(queue, until, &it);
    }
    if (!is_served) {
        if (it.code == PQ_OK && record != NULL) {
            flatpq_put_in(queue, record, it.got);
        }
        flatpq_unlock(queue);
    }
    if (it.code == PQ_OK) {
        *member = it.got;
        flatpq_wake_after(it.got); /* without the lock: a joining may have made a round */
    }
    return it.code;
}

/*
 * The public calls.
 */

pq_code pq_join(pq_queue *queue, uint64_t until, pq_member **member) {
    pq_code code;
    *member = NULL;
    code = flatpq_special & FORKED ? PQ_FORKED : flatpq_get_member(queue, until, NULL, member);
    return code;
}

void pq_give_back(pq_member *member) {
    pq_queue *queue;
    if (member == NULL || flatpq_special & FORKED) {
        return;
    }
    queue = member->queue;
    if (member->is_shared) {
        pq_leave(queue);
        return;
    }
    pq_unlisten(member);
    pthread_mutex_lock(&flatpq_members);
    flatpq_release(queue, member);
    flatpq_unlock(queue);
}

/* Carries out a shut that waits. All members are in, so nobody has the queue's lock. */
static pq_code end_shut(pq_queue *queue) {
    pq_member *member;
    pq_code code = PQ_OK;
    if (__atomic_load_n(&queue->is_shut, SEQ) == SHUT_WAITS && (code = join(queue, &member)) == PQ_OK) {
        (void)!flatpq_before(member);
        give_back(queue, member);
    }
    return code;
}

/* Under the lock. */
static pq_code close_proved(pq_queue *queue, core *journal) {
    pq_code code;
    if (queue->is_closed) {
        return PQ_CLOSED;
    }
    flatpq_take_back(queue);
    if (queue->out > 0 || __atomic_load_n(&queue->waiting, SEQ) > 0) {
        return PQ_MEMBERS_LEFT;
    }
    code = end_shut(queue);
    if (code == PQ_OK) {
        code = LEAVE_OUT(pq_core_close(&queue->proved, journal));
    }
    if (code == PQ_OK) {
        __atomic_store_n(&queue->is_closed, 1, SEQ);
        refuse_all(queue);
        flatpq_end_awaiting(queue);
    }
    return code;
}

pq_code pq_close(pq_queue *queue, pq_journal **journal) {
    pq_journal *made = NULL;
    core closed = NULL;
    pq_code code;
    if (journal != NULL) {
        *journal = NULL;
    }
    if (flatpq_special & FORKED) {
        return PQ_FORKED;
    }
    if (journal != NULL && (made = flatpq_new_journal()) == NULL) {
        return PQ_NO_MEMORY;
    }
    pthread_mutex_lock(&flatpq_members);
    code = close_proved(queue, &closed);
    flatpq_unlock(queue);
    if (code != PQ_OK) {
        free(made);
    } else if (journal == NULL) {
        close_journal(closed);
    } else {
        flatpq_fill_journal(made, closed);
        *journal = made;
    }
    return code;
}

void pq_free(pq_queue *queue, void (*left)(void *context, pq_item item), void *context) {
    if (queue == NULL || flatpq_special & FORKED) {
        return;
    }
    pq_leave(queue);
    pthread_mutex_lock(&flatpq_members);
    queue->left = left;
    queue->left_context = context;
    __atomic_store_n(&queue->is_freed, 1, SEQ);
    refuse_all(queue);
    flatpq_end_awaiting(queue);
    flatpq_take_back(queue);
    flatpq_unlock(queue);
}
