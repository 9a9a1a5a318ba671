/* A scheduler. Threads share tasks, each with the hour at which it is due. A worker runs the task that is due first, and puts it in again
   for its next hour. It ends once none is due today. At the end the journal says when each task ran. */
#include "flatpq.h"

#include <inttypes.h>
#include <pthread.h>
#include <stdio.h>
#include <stdlib.h>

enum { WORKERS = 4, TASKS = 3, END_OF_DAY = 24 };
static const struct { const char *name; uint64_t first, period; } tasks[TASKS] = { { "backup", 3, 12 }, { "mail", 0, 4 }, { "report", 8, 8 } };

static void must(pq_code code) {
    if (code != PQ_OK) {
        fprintf(stderr, "scheduler: %s\n", pq_code_text(code));
        exit(1);
    }
}

static void *work(void *queue) {
    pq_member *own = pq_own(queue);
    pq_item task; /* the priority is the hour, the value the number of the task */
    while (pq_pop_due(own, END_OF_DAY - 1, &task, PQ_FOREVER, NULL) == PQ_OK) {
        task.priority += tasks[task.value].period;
        must(pq_push(own, task, PQ_FOREVER, NULL));
    }
    return NULL;
}

static void print_runs(const pq_journal *journal, uint64_t task) {
    pq_entry entry;
    printf("%s ran at", tasks[task].name);
    for (size_t i = 0; pq_read(journal, i, &entry) == PQ_OK; i++) {
        if (entry.request == PQ_POP && entry.reply == PQ_OK && entry.item.value == task) {
            printf(" %" PRIu64, entry.item.priority);
        }
    }
    printf("\n");
}

int main(void) {
    pq_queue *queue;
    pq_journal *journal;
    pthread_t threads[WORKERS];
    must(pq_open(NULL, &queue));
    for (uint64_t task = 0; task < TASKS; task++) {
        pq_item item = { tasks[task].first, task };
        must(pq_push(pq_own(queue), item, PQ_FOREVER, NULL));
    }
    for (int i = 0; i < WORKERS; i++) {
        if (pthread_create(&threads[i], NULL, work, queue) != 0) {
            return 1;
        }
    }
    for (int i = 0; i < WORKERS; i++) {
        pthread_join(threads[i], NULL);
    }
    must(pq_close(queue, &journal));
    for (uint64_t task = 0; task < TASKS; task++) {
        print_runs(journal, task);
    }
    pq_journal_free(journal);
    pq_free(queue, NULL, NULL);
    return 0;
}
