/* The queue as a program in C has it. `c_queue queue|own WORKERS PUSHES POPS` makes the run that `queue_bench` makes, and prints the
   same fields: `c-KIND,WORKERS,CALLS,NANOSECONDS,audit ok`, or `audit failed` as the last field. The workers of `queue` have joined, and those
   of `own` share pq_own. */
#define _POSIX_C_SOURCE 200809L

#include "flatpq.h"
#include "load.h"

struct kind {
    const char *name;
    int is_own;
};

static const struct kind kinds[] = { { "queue", 0 }, { "own", 1 } };

struct worker {
    pq_member *member;
    uint32_t number;
    struct worked *worked;
    pthread_t thread;
};

static const struct kind *kind;
static struct load load;
static pq_queue *queue;
static struct worker workers[64];
static pthread_barrier_t start;

static void need(int holds, const char *what) {
    if (!holds) {
        fprintf(stderr, "c_queue: %s\n", what);
        exit(1);
    }
}

static void push(pq_member *member, pq_item item, uint64_t *number) {
    pq_code code = pq_push(member, item, PQ_FOREVER, number);
    need(code == PQ_OK, "a push was refused");
}

/* Pops: the priority of the item, or 0 where there is none. */
static uint64_t pop(pq_member *member, uint64_t *number) {
    pq_item item = { 0, 0 };
    pq_code code = pq_pop(member, &item, PQ_FOREVER, number);
    need(code == PQ_OK || code == PQ_EMPTY, "a pop was refused");
    return code == PQ_OK ? item.priority : 0;
}

static void *work(void *own) {
    struct worker *worker = (struct worker *)own;
    struct worked worked = { 0, 0, 0, 0 };
    pthread_barrier_wait(&start);
    worked.began = nanoseconds_now();
    for (uint32_t call = 0; call < load.pushes + load.pops; call++) {
        uint64_t number = 0;
        if (call < load.pushes) {
            pq_item item = { priority_of(worker->number, call), call };
            push(worker->member, item, &number);
        } else {
            worked.sum += pop(worker->member, &number);
        }
        worked.lines += number;
    }
    worked.ended = nanoseconds_now();
    *worker->worked = worked;
    return NULL;
}

/* Each worker works in a thread of its own. */
static void run(struct worked *worked) {
    need(pthread_barrier_init(&start, NULL, load.workers) == 0, "no barrier");
    for (uint32_t i = 0; i < load.workers; i++) {
        workers[i].number = i;
        workers[i].worked = &worked[i];
        workers[i].member = pq_own(queue);
        need(kind->is_own || pq_join(queue, PQ_NOW, &workers[i].member) == PQ_OK, "a worker did not join");
    }
    for (uint32_t i = 0; i < load.workers; i++) {
        need(pthread_create(&workers[i].thread, NULL, work, &workers[i]) == 0, "no thread");
    }
    for (uint32_t i = 0; i < load.workers; i++) {
        need(pthread_join(workers[i].thread, NULL) == 0, "a worker did not end");
        if (!kind->is_own) {
            pq_give_back(workers[i].member);
        }
    }
}

/* Whether a closed queue has an entry for each call, and as many pushes as there were, where all are in memory; and the sum of the
   priorities that are left. */
static int is_sound(pq_journal *journal, uint64_t *left) {
    uint64_t before = 0;
    uint64_t pushes = 0;
    size_t count = pq_count(journal, &before);
    pq_entry entry;
    pq_item item;
    for (size_t i = 0; i < count; i++) {
        need(pq_read(journal, i, &entry) == PQ_OK, "the journal lacks an entry");
        pushes += entry.request == PQ_PUSH;
    }
    while (pq_take_left(journal, &item) == PQ_OK) {
        *left += item.priority;
    }
    return before + count == calls_of(&load) && (before > 0 || pushes == (uint64_t)load.workers * load.pushes);
}

int main(int argc, char **argv) {
    pq_journal *journal = NULL;
    struct worked *worked = NULL;
    char name[16];
    uint64_t left = 0;
    int sound = 0;
    for (size_t i = 0; argc > 1 && i < sizeof kinds / sizeof *kinds; i++) {
        kind = strcmp(argv[1], kinds[i].name) == 0 ? &kinds[i] : kind;
    }
    if (kind == NULL || !read_load(argv + 2, &load)) {
        fputs("usage: c_queue queue|own WORKERS PUSHES POPS\n", stderr);
        return 2;
    }
    need(pq_open(NULL, &queue) == PQ_OK, "no queue was opened");
    worked = room_for(&load);
    run(worked);
    need(pq_close(queue, &journal) == PQ_OK, "the queue was not closed");
    pq_free(queue, NULL, NULL);
    sound = is_sound(journal, &left);
    pq_journal_free(journal);
    snprintf(name, sizeof name, "c-%s", kind->name);
    return tell(name, &load, worked, left, lines_sum(&load), sound);
}
