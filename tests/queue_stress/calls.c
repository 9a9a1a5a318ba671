/* Rounds of threads that make requests at random, by members that they joined and by pq_own. In one round of eight a member halts in a call
   that holds the queue's lock, until all others have ended. */
#include "stress.h"

#include <unistd.h>

enum { BETWEEN_ARCHIVES = 8, LARGE = 4000, MOST_CALLS = 60, AT_ONCE = 8 };

/* A thread that halts in pq_archive does so where this asks for memory for the entries, which is its only large request. */
static pthread_mutex_t lock = PTHREAD_MUTEX_INITIALIZER;
static pthread_cond_t changed = PTHREAD_COND_INITIALIZER;
static int is_held, is_over;
static __thread int halts;

static void requested(size_t size) {
    if (!halts || size < LARGE) {
        return;
    }
    halts = 0;
    pthread_mutex_lock(&lock);
    is_held = !is_over;
    pthread_cond_broadcast(&changed);
    while (!is_over) {
        pthread_cond_wait(&changed, &lock);
    }
    pthread_mutex_unlock(&lock);
}

/* The linker calls these in place of malloc and realloc. */
void *__real_malloc(size_t size);
void *__real_realloc(void *block, size_t size);
void *__wrap_malloc(size_t size);
void *__wrap_realloc(void *block, size_t size);

void *__wrap_malloc(size_t size) {
    requested(size);
    return __real_malloc(size);
}

void *__wrap_realloc(void *block, size_t size) {
    requested(size);
    return __real_realloc(block, size);
}

/* A round, and a thread of it. */
typedef struct plan {
    pq_queue *queue;
    uint32_t threads, members;
    uint64_t room;
    int is_kept, archives, has_tickets;
} plan;

typedef struct caller {
    const plan *round;
    uint32_t number;
    numbers drawn;
    outcome outcome;
    pq_member *member;
    pthread_t thread;
} caller;

/* Of eight requests four are pushes, three pops and one a peek; every other push has one of a few priorities. */
static uint32_t drawn_request(numbers *drawn) {
    uint32_t it = below(drawn, 8);
    return it < 4 ? PQ_PUSH : it < 7 ? PQ_POP : PQ_PEEK;
}

static pq_item drawn_item(caller *own) {
    pq_item it = { below(&own->drawn, 2) == 0 ? below(&own->drawn, 4) : any(&own->drawn), any(&own->drawn) };
    return it;
}

/* Whether a call by pq_own, or one with a deadline, has done nothing, as other threads had all members or the lock. */
static int is_late(const caller *own, pq_code code) {
    return code == PQ_TIMED_OUT || (code == PQ_ALL_JOINED && !own->outcome.has_joined);
}

/* Takes an answer down. A peek has no entry: its number is how many came before it, those of calls that had returned among them. */
static void answered(caller *own, uint32_t request, pq_code code, uint64_t number, pq_item item) {
    if (request == PQ_PEEK && (code == PQ_OK || code == PQ_EMPTY)) {
        own->outcome.wrong = number < own->outcome.seen ? "a peek did not see what had returned before" : own->outcome.wrong;
    } else if (code == PQ_OK || code == PQ_EMPTY) {
        add(&own->outcome, number, request, code, item);
        own->outcome.wrong = number == 0 ? "a call returned no number" : own->outcome.wrong;
    } else if (code == PQ_JOURNAL_FULL) {
        own->outcome.full++;
    } else if (!is_late(own, code)) {
        own->outcome.wrong = pq_code_text(code);
    }
}

/* A time until which a call may wait: where a member holds the lock, none waits for ever. */
static uint64_t drawn_until(caller *own) {
    uint32_t it = below(&own->drawn, own->round->is_kept ? 2 : 4);
    return it == 0 ? PQ_NOW : it == 1 ? pq_after(below(&own->drawn, 200000)) : PQ_FOREVER;
}

static void by_call(caller *own) {
    uint32_t request = drawn_request(&own->drawn);
    pq_item item = drawn_item(own);
    uint64_t until = drawn_until(own);
    uint64_t number = 0;
    pq_code code = request == PQ_PUSH ? pq_push(own->member, item, until, &number)
                 : request == PQ_POP  ? pq_pop(own->member, &item, until, &number)
                                      : pq_peek(own->member, &item, until, &number);
    answered(own, request, code, number, item);
}

/* Pops what is due: the item is on the right side of the bound, and has an entry only where it was popped. */
static void by_bound(caller *own) {
    uint64_t bound = below(&own->drawn, 2) == 0 ? below(&own->drawn, 4) : any(&own->drawn);
    uint64_t number = 0;
    pq_item item = { 0, 0 };
    pq_code code = pq_pop_due(own->member, bound, &item, drawn_until(own), &number);
    if ((code == PQ_OK && item.priority > bound) || (code == PQ_NOT_DUE && item.priority <= bound)) {
        own->outcome.wrong = "a pop of what is due returned an item of the other side of its bound";
    } else if (code != PQ_NOT_DUE && code != PQ_EMPTY) {
        answered(own, PQ_POP, code, number, item);
    }
}

/* Removes or moves an item, by the number of a request of this thread or of any: the item waits, is gone, or never had this ticket. */
static void by_ticket(caller *own) {
    const outcome *it = &own->outcome;
    uint64_t last = it->count > 0 ? it->answers[it->count - 1].number : 1;
    uint64_t ticket = it->count > 0 && below(&own->drawn, 2) == 0 ? it->answers[below(&own->drawn, (uint32_t)it->count)].number
                                                                  : 1 + below(&own->drawn, (uint32_t)last);
    uint64_t priority = drawn_item(own).priority, until = drawn_until(own), number = 0;
    pq_item item = { 0, 0 };
    int moves = below(&own->drawn, 2) == 0;
    pq_code code = moves ? pq_reschedule(own->member, ticket, priority, until, &number) : pq_remove(own->member, ticket, &item, until, &number);
    if (code != PQ_NO_TICKETS) {
        answered(own, moves ? PQ_RESCHEDULE : PQ_REMOVE, code == PQ_GONE ? PQ_EMPTY : code, number, item);
    }
    if (code == PQ_NO_TICKETS && own->round->has_tickets) {
        own->outcome.wrong = pq_code_text(code);
    }
}

/* Pushes or pops several at once. Their entries are consecutive. */
static void by_batch(caller *own) {
    pq_item items[AT_ONCE];
    size_t done = 0;
    uint64_t number = 0;
    uint32_t request = below(&own->drawn, 2) == 0 ? PQ_PUSH : PQ_POP;
    uint64_t until = drawn_until(own);
    pq_code code = PQ_OK;
    for (uint32_t i = 0; i < AT_ONCE; i++) {
        items[i] = drawn_item(own);
    }
    code = request == PQ_PUSH ? pq_push_many(own->member, items, AT_ONCE, until, &done, &number)
                              : pq_pop_due_many(own->member, UINT64_MAX, items, AT_ONCE, until, &done, &number);
    for (size_t i = 0; i < done; i++) {
        add(&own->outcome, number + i, request, PQ_OK, items[i]);
    }
    if ((number > 0) != (done > 0)) {
        own->outcome.wrong = "a batch returned no number, or one without an entry";
    } else if (code == PQ_JOURNAL_FULL) {
        own->outcome.full++;
    } else if (code != PQ_OK && !is_late(own, code) && (request == PQ_PUSH || code != PQ_EMPTY || done > 0)) {
        own->outcome.wrong = pq_code_text(code);
    }
}

/* Brings the thread's copy of the journal up to date. */
static void archives(caller *own) {
    pq_journal *more = NULL;
    pq_code code = pq_archive(own->member, own->outcome.archived, drawn_until(own), &more);
    if (code == PQ_OK) {
        own->outcome.archive = copied(more, own->outcome.archive, &own->outcome.archived);
        pq_journal_free(more);
    } else if (!is_late(own, code)) {
        own->outcome.wrong = pq_code_text(code);
    }
}

/* Halts in an archive of the whole journal, with the lock in its hand. The journal gets long enough first. */
static void keeps(caller *own) {
    pq_journal *whole = NULL;
    pq_item item = { 0, 0 };
    while (pq_archive(own->member, 0, PQ_FOREVER, &whole) == PQ_OK && pq_count(whole, NULL) < 2 * LARGE / sizeof(pq_entry)) {
        uint64_t number = 0;
        begins(&own->outcome);
        pq_code code = pq_push(own->member, item, PQ_FOREVER, &number);
        answered(own, PQ_PUSH, code, number, item);
        pq_journal_free(whole);
        whole = NULL;
    }
    pq_journal_free(whole);
    halts = 1;
    own->outcome.wrong = pq_archive(own->member, 0, PQ_FOREVER, &whole) == PQ_OK ? own->outcome.wrong : "an archive was refused";
    halts = 0;
    own->outcome.archive = copied(whole, NULL, &own->outcome.archived);
    pq_journal_free(whole);
}

/* Waits until a member has halted so: whether others find the lock held. */
static int finds_lock_held(pq_member *member) {
    pq_item item = { 0, 0 };
    uint64_t size;
    pthread_mutex_lock(&lock);
    while (!is_held) {
        pthread_cond_wait(&changed, &lock);
    }
    pthread_mutex_unlock(&lock);
    return pq_size(member, PQ_NOW, &size, NULL) == PQ_TIMED_OUT && pq_push(member, item, pq_after(100000), NULL) == PQ_TIMED_OUT;
}

static void *calls(void *at) {
    caller *own = (caller *)at;
    void (*const ways[])(caller *) = { by_call, by_call, by_call, by_bound, by_batch, by_ticket };
    uint32_t most = below(&own->drawn, MOST_CALLS);
    if (own->round->is_kept && own->number == 0) {
        keeps(own);
        return NULL;
    }
    if (own->round->is_kept && !finds_lock_held(own->member)) {
        own->outcome.wrong = "the lock was free while a member held it";
    }
    for (uint32_t made = 0; made < most && own->outcome.wrong == NULL; made++) {
        own->outcome.calls++;
        begins(&own->outcome);
        if (own->round->archives && own->number == 1 && made % BETWEEN_ARCHIVES == 0) {
            archives(own);
        }
        if (!own->outcome.has_joined && below(&own->drawn, 16) == 0) {
            pq_leave(own->round->queue);
        }
        ways[below(&own->drawn, sizeof ways / sizeof *ways)](own);
    }
    return NULL;
}

/* Draws a round. One in eight has a journal of few entries, half have tickets, and in one of eight a member holds the lock. */
static plan drawn_round(numbers *drawn) {
    pq_options options = { 0, 0, 0, 0, 0, 0, 0 };
    plan it = { NULL, below(drawn, 64) + 1, 0, UINT64_MAX, below(drawn, 8) == 0, 0, below(drawn, 2) == 0 };
    uint32_t few = below(drawn, 8);
    it.threads += it.is_kept && it.threads == 1;
    it.members = it.is_kept ? it.threads : below(drawn, it.threads) + 1;
    options.members = it.members;
    options.tickets = (uint32_t)it.has_tickets;
    if (few == 0 && !it.is_kept) {
        options.keeping = PQ_FILLS;
        options.entries = below(drawn, 100) + 1;
        it.room = options.entries;
    } else {
        options.keeping = few % 3;
        options.entries = ROOM;
        it.archives = options.keeping != PQ_FILLS;
    }
    need(pq_open(&options, &it.queue) == PQ_OK, "no queue was opened");
    is_held = is_over = 0;
    return it;
}

const char *plays_calls(uint64_t seed, uint32_t number, uint64_t *calls_made) {
    static caller callers[MOST_THREADS];
    numbers drawn = numbers_of(seed, number);
    plan round = drawn_round(&drawn);
    outcome all[MOST_THREADS];
    const char *wrong = NULL;
    memset(callers, 0, sizeof callers);
    greatest = 0;
    /* Of the members one at least is left for those that share pq_own. */
    for (uint32_t i = 0; i < round.threads; i++) {
        caller *own = &callers[i];
        own->round = &round;
        own->number = i;
        own->drawn = numbers_of(any(&drawn), i);
        own->outcome.has_joined = round.is_kept || (i + 1 < round.members && below(&drawn, 2) == 0);
        own->member = pq_own(round.queue);
        need(!own->outcome.has_joined || pq_join(round.queue, PQ_NOW, &own->member) == PQ_OK, "a thread did not join");
    }
    for (uint32_t i = 0; i < round.threads; i++) {
        need(pthread_create(&callers[i].thread, NULL, calls, &callers[i]) == 0, "no thread");
    }
    for (uint32_t i = round.threads; i-- > 0;) {
        if (i == 0) {
            pthread_mutex_lock(&lock);
            is_over = 1;
            pthread_cond_broadcast(&changed);
            pthread_mutex_unlock(&lock);
        }
        pthread_join(callers[i].thread, NULL);
    }
    for (uint32_t i = 0; i < round.threads; i++) {
        pq_give_back(callers[i].outcome.has_joined ? callers[i].member : NULL);
        all[i] = callers[i].outcome;
        *calls_made += all[i].calls;
    }
    wrong = judged(round.queue, all, round.threads, round.room, 0);
    for (uint32_t i = 0; i < round.threads; i++) {
        free(all[i].answers);
        free(all[i].archive);
    }
    return wrong;
}
