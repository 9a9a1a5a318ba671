/* What a run's workers do and what is told of it, for the programs in C and C++, as crates/queue_bench has it: each worker pushes so
   many items and then pops. */
#ifndef LOAD_H
#define LOAD_H

#include <inttypes.h>
#include <pthread.h>
#include <stdint.h>
#include <stdio.h>
#include <stdlib.h>
#include <string.h>
#include <time.h>

struct load {
    uint32_t workers, pushes, pops;
};

/* What a worker did: when it began and ended, and the sums of the priorities that it took out and of the lines that its calls made. */
struct worked {
    uint64_t began, ended, sum, lines;
};

static inline uint32_t calls_of(const struct load *load) {
    return load->workers * (load->pushes + load->pops);
}

static inline uint32_t priority_of(uint32_t worker, uint32_t number) {
    return (uint32_t)((UINT64_C(7919) * worker + UINT64_C(104729) * number) % 1000003);
}

static inline uint64_t pushed_sum(const struct load *load) {
    uint64_t sum = 0;
    for (uint32_t worker = 0; worker < load->workers; worker++) {
        for (uint32_t number = 0; number < load->pushes; number++) {
            sum += priority_of(worker, number);
        }
    }
    return sum;
}

static inline uint64_t nanoseconds_now(void) {
    struct timespec now = { 0, 0 };
    clock_gettime(CLOCK_MONOTONIC, &now);
    return (uint64_t)now.tv_sec * UINT64_C(1000000000) + (uint64_t)now.tv_nsec;
}

/* Reads WORKERS PUSHES POPS: whether that is a load. */
static inline int read_load(char **words, struct load *load) {
    unsigned long numbers[3];
    for (size_t i = 0; i < 3; i++) {
        char *end = NULL;
        numbers[i] = words[i] == NULL ? 0 : strtoul(words[i], &end, 10);
        if (words[i] == NULL || end == words[i] || *end != '\0' || numbers[i] > 8192) {
            return 0;
        }
    }
    load->workers = (uint32_t)numbers[0];
    load->pushes = (uint32_t)numbers[1];
    load->pops = (uint32_t)numbers[2];
    return load->workers >= 1 && load->workers <= 64 && load->pushes >= 1 && load->pops <= load->pushes && words[3] == NULL;
}

/* Room for what each worker did. */
static inline struct worked *room_for(const struct load *load) {
    struct worked *worked = (struct worked *)calloc(load->workers, sizeof *worked);
    if (worked == NULL) {
        exit(1);
    }
    return worked;
}

/* What the lines of all calls come to, each once: 1, 2, 3 and so on. */
static inline uint64_t lines_sum(const struct load *load) {
    uint64_t calls = calls_of(load);
    return calls * (calls + 1) / 2;
}

/* Tells a run of this kind that left items of priorities of this sum, and frees what was kept of it: 0 where it was sound. The lines that
   the calls made have to come to this sum, which is 0 where they say none. */
static inline int tell(const char *kind, const struct load *load, struct worked *worked, uint64_t left, uint64_t lines, int is_sound) {
    uint64_t began = worked[0].began;
    uint64_t ended = 0;
    uint64_t out = 0;
    for (uint32_t i = 0; i < load->workers; i++) {
        began = worked[i].began < began ? worked[i].began : began;
        ended = worked[i].ended > ended ? worked[i].ended : ended;
        out += worked[i].sum;
        lines -= worked[i].lines;
    }
    is_sound = is_sound && out + left == pushed_sum(load) && lines == 0;
    printf("%s,%" PRIu32 ",%" PRIu32 ",%" PRIu64 ",", kind, load->workers, calls_of(load), ended - began);
    printf("audit %s\n", is_sound ? "ok" : "failed");
    free(worked);
    return !is_sound;
}

#endif
