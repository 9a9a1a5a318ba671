/* A pipeline whose reader can't run ahead. A reader hands lines to a writer through a queue that holds 4 of them at most. If it is full, the
   reader waits until the writer has taken one. An item's value is a pointer to its line, and its priority is the line's number. */
#include "flatpq.h"

#include <pthread.h>
#include <stdio.h>
#include <stdlib.h>

enum { LINES = 20, AT_MOST = 4, LENGTH = 32 };
static char lines[LINES][LENGTH];

static void must(pq_code code) {
    if (code != PQ_OK) {
        fprintf(stderr, "pipeline: %s\n", pq_code_text(code));
        exit(1);
    }
}

/* Reads the lines, and shuts the queue after the last one. */
static void *read_all(void *queue) {
    for (int i = 0; i < LINES; i++) {
        pq_item line;
        snprintf(lines[i], LENGTH, "line %d", i + 1);
        line.priority = (uint64_t)i;
        line.value = (uint64_t)(uintptr_t)lines[i];
        must(pq_push(pq_own(queue), line, PQ_FOREVER, NULL));
    }
    must(pq_shut(queue));
    return NULL;
}

int main(void) {
    pq_options options = { 0, PQ_FORGETS, 0, 0, 0, 0, AT_MOST };
    pq_queue *queue;
    pthread_t reader;
    pq_item line;
    pq_code code;
    uint64_t size, peak;
    must(pq_open(&options, &queue));
    if (pthread_create(&reader, NULL, read_all, queue) != 0) {
        return 1;
    }
    while ((code = pq_take(pq_own(queue), &line, PQ_FOREVER, NULL)) == PQ_OK) {
        printf("%s\n", (const char *)(uintptr_t)line.value);
    }
    pthread_join(reader, NULL);
    must(pq_size(pq_own(queue), PQ_FOREVER, &size, &peak));
    printf("%s, and it never held more than %d lines: %s\n", pq_code_text(code), AT_MOST, peak <= AT_MOST ? "yes" : "no");
    pq_free(queue, NULL, NULL);
    return 0;
}
