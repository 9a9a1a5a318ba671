/* More threads wait than a queue has members. A thousand sleep in takes at a queue of four members, and each gets an item. Takers whose handlers
   push to the same queue go on until it is shut. Many pushes wait for room. A thread listens beside many that wait. */
#include "../check.h"

enum { MEMBERS = 4, HANDLERS = 80, HOPS = 20 };

static pq_queue *queue;
static uint32_t handled, all;

static void *takes_one(void *value) {
    pq_item item;
    CHECK(pq_take(pq_own(queue), &item, PQ_FOREVER, NULL) == PQ_OK);
    *(uint64_t *)value = item.value;
    return NULL;
}

static void *pushes_one(void *value) {
    CHECK(pq_push(pq_own(queue), item_of(1, *(uint64_t *)value), PQ_FOREVER, NULL) == PQ_OK);
    return NULL;
}

/* Each value was taken once. */
static void are_all(const uint64_t *values, uint32_t count) {
    char *seen = calloc(count, 1);
    CHECK(seen != NULL);
    for (uint32_t i = 0; i < count; i++) {
        CHECK(values[i] < count && seen[values[i]] == 0);
        seen[values[i]] = 1;
    }
    free(seen);
}

/* So many threads do this, each with a value of its own, while this thread does that with each value. */
static void beside(uint32_t count, void *(*work)(void *value), void *(*other)(void *value)) {
    pthread_t *threads = calloc(count, sizeof *threads);
    uint64_t *taken = calloc(count, sizeof *taken), *others = calloc(count, sizeof *others);
    CHECK(threads != NULL && taken != NULL && others != NULL);
    for (uint32_t i = 0; i < count; i++) {
        taken[i] = others[i] = i;
        threads[i] = started(work, &taken[i]);
    }
    sleep_ms(100);
    for (uint32_t i = 0; i < count; i++) {
        (void)other(&others[i]);
    }
    for (uint32_t i = 0; i < count; i++) {
        ended(threads[i]);
    }
    are_all(taken, count);
    are_all(others, count);
    CHECK(size_of(queue) == 0);
    free(threads);
    free(taken);
    free(others);
}

static void *takes_and_pushes(void *unused) {
    pq_item item;
    pq_code code;
    while ((code = pq_take(pq_own(queue), &item, PQ_FOREVER, NULL)) == PQ_OK) {
        if (item.priority > 0) {
            CHECK(pq_push(pq_own(queue), item_of(item.priority - 1, item.value), PQ_FOREVER, NULL) == PQ_OK);
        }
        if (__atomic_add_fetch(&handled, 1, __ATOMIC_RELAXED) == all) {
            CHECK(pq_shut(queue) == PQ_OK);
        }
    }
    CHECK(code == PQ_SHUT);
    return unused;
}

static void handlers_push(void) {
    pthread_t threads[HANDLERS];
    const uint32_t hops = requests(HOPS);
    queue = opened(MEMBERS);
    all = HANDLERS * (hops + 1);
    for (int i = 0; i < HANDLERS; i++) {
        threads[i] = started(takes_and_pushes, NULL);
    }
    for (uint64_t i = 0; i < HANDLERS; i++) {
        CHECK(pq_push(pq_own(queue), item_of(hops, i), PQ_FOREVER, NULL) == PQ_OK);
    }
    for (int i = 0; i < HANDLERS; i++) {
        ended(threads[i]);
    }
    CHECK(handled == all && size_of(queue) == 0);
    close_and_free(queue);
}

static void notes_nothing(void *unused) {
    (void)unused;
}

/* Threads that wait leave numbers to those that listen. */
static void one_listens_beside_many(void) {
    pthread_t threads[HANDLERS];
    uint64_t values[HANDLERS];
    pq_item item;
    queue = opened(MEMBERS);
    for (int i = 0; i < HANDLERS; i++) {
        threads[i] = started(takes_one, &values[i]);
    }
    sleep_ms(100);
    CHECK(pq_take_or_listen(pq_own(queue), UINT64_MAX, &item, NULL, notes_nothing, NULL) == PQ_EMPTY);
    CHECK(pq_unlisten(pq_own(queue)) == 1);
    for (uint64_t i = 0; i < HANDLERS; i++) {
        CHECK(pq_push(pq_own(queue), item_of(1, i), PQ_FOREVER, NULL) == PQ_OK);
    }
    for (int i = 0; i < HANDLERS; i++) {
        ended(threads[i]);
    }
    are_all(values, HANDLERS);
    close_and_free(queue);
}

int main(void) {
    const pq_options bounded = { MEMBERS, PQ_FORGETS, 0, 0, 0, 0, 1 };
    queue = opened(MEMBERS);
    beside(requests(1000), takes_one, pushes_one);
    close_and_free(queue);
    CHECK(pq_open(&bounded, &queue) == PQ_OK);
    beside(requests(300), pushes_one, takes_one);
    close_and_free(queue);
    handlers_push();
    one_listens_beside_many();
    return 0;
}
