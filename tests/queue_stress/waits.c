/* Rounds of threads that wait for items: takers that sleep, with deadlines or without, until items are due, or that listen, by timers where
   items are to be due; pushers of several ways; and one that shuts the queue, at the end or in their midst. All of them end, or the round
   hangs; and each item that was pushed was taken once, or is left. */
#include "stress.h"

#include <poll.h>
#include <sys/timerfd.h>
#include <unistd.h>

enum { MOST_PUSHES = 60, LONGEST_SECONDS = 20 };

/* How a taker waits. Where none tries again by itself now and then, a wake that is lost has the round hang. */
typedef enum way { SLEEPS, LATE, LISTENS, GIVES_UP } way;
static const way ways[4][4] = { { SLEEPS, SLEEPS, SLEEPS, SLEEPS },
                                { LISTENS, LISTENS, LISTENS, LISTENS },
                                { SLEEPS, LISTENS, SLEEPS, LISTENS },
                                { SLEEPS, LATE, LISTENS, GIVES_UP } };

/* A round. Where each pusher has so many items, each taker goes with its share of them: so nobody else takes what one was woken for. */
typedef struct plan {
    pq_queue *queue;
    uint32_t pushers, takers, each, cut_after;
    uint64_t room;
    const way *ways;
    int is_due, is_cut, is_own;
} plan;

typedef struct waiter {
    const plan *round;
    numbers drawn;
    outcome outcome;
    pq_member *member;
    uint32_t number, share;
    pthread_t thread;
    pthread_mutex_t lock;
    pthread_cond_t changed;
    int is_notified, timer;
} waiter;

/* How many items were taken. */
static uint32_t taken;

static void notified(void *context) {
    waiter *own = (waiter *)context;
    pthread_mutex_lock(&own->lock);
    own->is_notified = 1;
    pthread_cond_signal(&own->changed);
    pthread_mutex_unlock(&own->lock);
}

/* Waits until it is notified, but no longer than so many microseconds where that isn't 0. */
static void waits_for_notice(waiter *own, uint32_t microseconds) {
    pthread_mutex_lock(&own->lock);
    if (microseconds > 0) {
        pthread_mutex_unlock(&own->lock);
        usleep(microseconds);
        pthread_mutex_lock(&own->lock);
    }
    while (!own->is_notified && microseconds == 0) {
        pthread_cond_wait(&own->changed, &own->lock);
    }
    own->is_notified = 0;
    pthread_mutex_unlock(&own->lock);
}

/* Takes an item by listening for it, or gives that up after some tries. */
static pq_code by_listening(waiter *own, int gives_up, pq_item *item, uint64_t *number) {
    uint32_t tries = gives_up ? below(&own->drawn, 3) + 1 : UINT32_MAX;
    pq_code code = PQ_EMPTY;
    while (tries-- > 0) {
        code = pq_take_or_listen(own->member, UINT64_MAX, item, number, notified, own);
        if (code != PQ_EMPTY) {
            return code;
        }
        waits_for_notice(own, gives_up ? below(&own->drawn, 200) + 1 : 0);
    }
    (void)pq_unlisten(own->member);
    return code;
}

/* Takes an item once it is due, by a timer, or gives that up after some tries. */
static pq_code by_timer(waiter *own, int gives_up, pq_item *item, uint64_t *number) {
    uint32_t tries = gives_up ? below(&own->drawn, 3) + 1 : UINT32_MAX;
    pq_code code = PQ_EMPTY;
    while (tries-- > 0) {
        struct pollfd timer = { own->timer, POLLIN, 0 };
        code = pq_take_due_or_listen(own->member, own->timer, item, number);
        if (code != PQ_EMPTY && code != PQ_NOT_DUE) {
            return code;
        }
        (void)poll(&timer, 1, gives_up ? (int)below(&own->drawn, 3) : -1);
    }
    (void)pq_unlisten(own->member);
    return code;
}

/* Takes an item, or waits for one so long that it takes none. */
static pq_code takes(waiter *own, pq_item *item, uint64_t *number) {
    way how = own->round->ways[below(&own->drawn, 4)];
    uint64_t until = how == SLEEPS ? PQ_FOREVER : pq_after(below(&own->drawn, 1500000));
    if (own->round->is_due && (how == LISTENS || how == GIVES_UP)) {
        return by_timer(own, how == GIVES_UP, item, number);
    }
    if (own->round->is_due) {
        return pq_take_due(own->member, item, until, number);
    }
    return how == SLEEPS || how == LATE ? pq_take(own->member, item, until, number) : by_listening(own, how == GIVES_UP, item, number);
}

/* Takes its share, or until the queue is shut and empty, or full. */
static void *all_taken(void *at) {
    waiter *own = (waiter *)at;
    for (uint32_t count = 0; count < own->share;) {
        pq_item item = { 0, 0 };
        uint64_t number = 0;
        begins(&own->outcome);
        pq_code code = takes(own, &item, &number);
        own->outcome.calls++;
        if (code == PQ_OK) {
            add(&own->outcome, number, PQ_POP, PQ_OK, item);
            __atomic_add_fetch(&taken, 1, __ATOMIC_SEQ_CST);
            count++;
        } else if (code == PQ_SHUT || code == PQ_JOURNAL_FULL) {
            own->outcome.full += code == PQ_JOURNAL_FULL;
            break;
        } else if (code != PQ_EMPTY && code != PQ_NOT_DUE && code != PQ_TIMED_OUT && code != PQ_ALL_JOINED) {
            own->outcome.wrong = pq_code_text(code);
            break;
        }
    }
    pq_leave(own->round->queue);
    return NULL;
}

/* Pushes by a call, or by a call with a deadline. */
static pq_code pushes(waiter *own, pq_item item, uint64_t *number) {
    const uint64_t until = below(&own->drawn, 4) == 0 ? pq_after(below(&own->drawn, 1500000)) : PQ_FOREVER;
    return pq_push(own->member, item, until, number);
}

static void *all_pushed(void *at) {
    waiter *own = (waiter *)at;
    uint32_t most = own->round->each > 0 ? own->round->each : below(&own->drawn, MOST_PUSHES);
    for (uint32_t count = 0; count < most;) {
        pq_item item = { below(&own->drawn, 2000), (uint64_t)own->number << 32 | count };
        uint64_t number = 0;
        pq_code code = PQ_OK;
        /* Where items are few, takers sleep meanwhile. */
        if (below(&own->drawn, own->round->each > 0 ? 2 : 8) == 0) {
            usleep(below(&own->drawn, 300));
        }
        begins(&own->outcome);
        code = pushes(own, item, &number);
        own->outcome.calls++;
        if (code == PQ_OK) {
            add(&own->outcome, number, PQ_PUSH, PQ_OK, item);
            count++;
        } else if (code == PQ_SHUT || code == PQ_JOURNAL_FULL) {
            own->outcome.full += code == PQ_JOURNAL_FULL;
            break;
        } else if (code != PQ_TIMED_OUT && code != PQ_ALL_JOINED) {
            own->outcome.wrong = pq_code_text(code);
            break;
        }
    }
    pq_leave(own->round->queue);
    return NULL;
}

/* Draws a round, in half of which each taker goes with its share. */
static plan drawn_round(numbers *drawn) {
    pq_options options = { 0, 0, 0, 0, 0, 0, 0 };
    plan it = { NULL, below(drawn, 8) + 1, below(drawn, 24) + 1, 0, below(drawn, 2000), UINT64_MAX, NULL, 0, 0, 0 };
    uint32_t few = below(drawn, 4);
    it.each = below(drawn, 2) == 0 ? below(drawn, 6) + 1 : 0;
    it.ways = ways[below(drawn, 4)];
    it.is_due = below(drawn, 3) == 0;
    it.is_cut = it.each == 0 && below(drawn, 2) == 0;
    it.is_own = below(drawn, 2) == 0;
    /* A taker keeps its member while it waits, so those that push by pq_own share what is left. */
    options.members = it.takers + (it.is_own ? below(drawn, it.pushers) + 1 : it.pushers);
    options.time_zero = below(drawn, 1000);
    options.time_unit = 1000;
    if (few == 0 && it.each == 0) {
        options.keeping = PQ_FILLS;
        options.entries = below(drawn, 300) + 1;
        it.room = options.entries;
    }
    /* Priorities are microseconds from now on. */
    options.time_zero -= pq_now() / options.time_unit;
    need(pq_open(&options, &it.queue) == PQ_OK, "no queue was opened");
    return it;
}

static void starts(waiter *own, const plan *round, uint32_t number, numbers *drawn, void *(*work)(void *)) {
    own->round = round;
    own->number = number;
    own->drawn = numbers_of(any(drawn), number);
    own->outcome.has_joined = !round->is_own;
    own->member = pq_own(round->queue);
    own->timer = timerfd_create(CLOCK_MONOTONIC, 0);
    own->share = UINT32_MAX;
    if (round->each > 0) {
        uint32_t all = round->pushers * round->each;
        own->share = all / round->takers + (number < all % round->takers);
    }
    need(own->timer >= 0, "no timer");
    need(pthread_mutex_init(&own->lock, NULL) == 0 && pthread_cond_init(&own->changed, NULL) == 0, "no lock");
    need(round->is_own || pq_join(round->queue, PQ_NOW, &own->member) == PQ_OK, "a thread did not join");
    need(pthread_create(&own->thread, NULL, work, own) == 0, "no thread");
}

/* Whether so many items are taken before long. */
static int are_taken(uint32_t pushed) {
    uint64_t ends = pq_after(LONGEST_SECONDS * UINT64_C(1000000000));
    while (__atomic_load_n(&taken, __ATOMIC_SEQ_CST) < pushed) {
        if (pq_now() > ends) {
            return 0;
        }
        usleep(50);
    }
    return 1;
}

/* Shuts the queue once all are taken, or after a while: whether all were taken that had to be. */
static int all_run(plan *round, waiter *waiters, numbers *drawn) {
    uint32_t threads = round->takers + round->pushers;
    uint32_t pushed = 0;
    int is_well = 1;
    taken = 0;
    for (uint32_t i = 0; i < threads; i++) {
        starts(&waiters[i], round, i, drawn, i < round->takers ? all_taken : all_pushed);
    }
    if (round->is_cut) {
        usleep(round->cut_after);
        need(pq_shut(round->queue) == PQ_OK, "the queue was not shut");
    }
    for (uint32_t i = round->takers; i < threads; i++) {
        pthread_join(waiters[i].thread, NULL);
        pushed += (uint32_t)waiters[i].outcome.count;
    }
    is_well = round->is_cut || round->room != UINT64_MAX || are_taken(pushed);
    need(pq_shut(round->queue) == PQ_OK, "the queue was not shut");
    for (uint32_t i = 0; i < round->takers; i++) {
        pthread_join(waiters[i].thread, NULL);
    }
    for (uint32_t i = 0; i < threads; i++) {
        pq_give_back(waiters[i].outcome.has_joined ? waiters[i].member : NULL);
        close(waiters[i].timer);
        pthread_cond_destroy(&waiters[i].changed);
        pthread_mutex_destroy(&waiters[i].lock);
    }
    return is_well;
}

const char *plays_waits(uint64_t seed, uint32_t number, uint64_t *calls_made) {
    static waiter waiters[MOST_THREADS];
    numbers drawn = numbers_of(seed, UINT64_C(1) << 40 | number);
    plan round = drawn_round(&drawn);
    uint32_t threads = round.takers + round.pushers;
    outcome all[MOST_THREADS];
    const char *wrong = NULL;
    memset(waiters, 0, sizeof waiters);
    greatest = 0;
    wrong = all_run(&round, waiters, &drawn) ? NULL : "an item is left beside those who wait for it, or have";
    for (uint32_t i = 0; i < threads; i++) {
        all[i] = waiters[i].outcome;
        *calls_made += all[i].calls;
    }
    wrong = wrong != NULL ? wrong : judged(round.queue, all, threads, round.room, round.room == UINT64_MAX);
    for (uint32_t i = 0; i < threads; i++) {
        free(all[i].answers);
    }
    return wrong;
}
