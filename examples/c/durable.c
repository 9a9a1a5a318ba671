/* A job queue that survives a crash. The queue's journal is a file. At the start the file is read back, and the jobs that are left go into
   a new queue, which begins a new file. An archiver appends what is new to the file, and syncs once for all of it. A job is acknowledged
   once its entry is on disk: as pushed, and as taken out and done. So a job that was acknowledged as pushed is not lost before its pop
   is on disk. One that was acknowledged as done doesn't come back. After its pop is on disk a crash loses a job, even unfinished.

   durable [FILE [FIRST [JOBS]]]: pushes so many jobs, with numbers from FIRST on, and does all that there are. FILE is in this folder. */
#define _POSIX_C_SOURCE 200809L
#include "flatpq.h"

#include <errno.h>
#include <fcntl.h>
#include <inttypes.h>
#include <pthread.h>
#include <stdio.h>
#include <stdlib.h>
#include <string.h>
#include <time.h>
#include <unistd.h>

enum { PUSHERS = 6, WORKERS = 2 };
static pq_queue *queue;
static int file, shows;
static uint64_t next, end, left, done;

static void need(int holds, const char *what, const char *why) {
    if (!holds) {
        fprintf(stderr, "durable: %s: %s\n", what, why);
        exit(1);
    }
}

static void must(pq_code code) {
    need(code == PQ_OK, "queue", pq_code_text(code));
}

static void nap(void) {
    const struct timespec time = { 0, 100000 };
    nanosleep(&time, NULL);
}

/* The queue refuses a request while too many entries wait for the archiver. */
static int is_refused(pq_code code) {
    if (code == PQ_UNARCHIVED) {
        nap();
        return 1;
    }
    must(code);
    return 0;
}

/* Appends what is new, and syncs. Its next call says how many entries are on disk. */
static void *archive(void *unused) {
    uint64_t archived = 0;
    pq_journal *journal;
    pq_code code;
    while ((code = pq_archive(pq_own(queue), archived, PQ_FOREVER, &journal)) == PQ_OK) {
        size_t count = pq_count(journal, NULL);
        if (count > 0) {
            must(pq_write(journal, file));
            need(fsync(file) == 0, "fsync", strerror(errno));
            archived += count;
        } else {
            nap();
        }
        pq_journal_free(journal);
    }
    must(code == PQ_CLOSED ? PQ_OK : code);
    return unused;
}

static uint64_t push(pq_item item) {
    uint64_t number;
    while (is_refused(pq_push(pq_own(queue), item, PQ_FOREVER, &number))) {
    }
    return number;
}

/* It is shown where FILE is named; stderr has no buffer. Entry 0 needs no wait. */
static void acknowledge(const char *what, uint64_t job, uint64_t number) {
    must(pq_wait_archived(queue, number, PQ_FOREVER));
    if (shows) {
        fprintf(stderr, "%s %" PRIu64 "\n", what, job);
    }
}

static void *push_jobs(void *unused) {
    pq_item item;
    while ((item.value = __atomic_fetch_add(&next, 1, __ATOMIC_RELAXED)) < end) {
        item.priority = item.value % 7;
        acknowledge("pushed", item.value, push(item));
    }
    return unused;
}

static void *work(void *unused) {
    pq_item item;
    uint64_t number;
    pq_code code;
    while ((code = pq_take(pq_own(queue), &item, PQ_FOREVER, &number)) != PQ_SHUT) {
        if (!is_refused(code)) {
            acknowledge("done", item.value, number);
            __atomic_fetch_add(&done, 1, __ATOMIC_RELAXED);
        }
    }
    return unused;
}

/* Reads the old file back. A torn line was never acknowledged. A damaged one is cut off, with all that follows it: jobs may be lost. */
static pq_journal *read_back(int old) {
    pq_journal *journal;
    uint64_t line, bytes;
    pq_code code = pq_journal_read(old, &journal, &line, &bytes);
    if (code == PQ_NOT_LAWFUL) {
        fprintf(stderr, "damaged line %" PRIu64 "\n", line);
        need(ftruncate(old, (off_t)bytes) == 0 && lseek(old, 0, SEEK_SET) == 0, "cut", strerror(errno));
        code = pq_journal_read(old, &journal, &line, &bytes);
    }
    acknowledge(code == PQ_TORN ? "torn after line" : "lines", line, 0);
    must(code == PQ_TORN ? PQ_OK : code);
    return journal;
}

/* Moves what is left into the new queue, whose file takes the old one's place once it is on disk. */
static void recover(const char *name, const char *beside) {
    pq_item item;
    uint64_t number = 0;
    int old = open(name, O_RDWR | O_CREAT, 0666), folder = open(".", O_RDONLY);
    pq_journal *journal = read_back(old);
    for (; pq_take_left(journal, &item) == PQ_OK; left++) {
        number = push(item);
        acknowledge("left", item.value, 0);
    }
    pq_journal_free(journal);
    must(pq_wait_archived(queue, number, PQ_FOREVER));
    need(rename(beside, name) == 0 && fsync(folder) == 0 && close(folder) == 0 && close(old) == 0, name, strerror(errno));
}

int main(int count, char **words) {
    const pq_options options = { 0, PQ_REFUSES, 0, 0, 0, 0, 0 };
    const char *name = count > 1 ? words[1] : "durable.journal", *beside = "durable.new";
    pthread_t archiver, threads[PUSHERS + WORKERS];
    shows = count > 1;
    next = count > 2 ? strtoull(words[2], NULL, 10) : 1;
    end = next + (count > 3 ? strtoull(words[3], NULL, 10) : 100);
    must(pq_open(&options, &queue));
    need((file = open(beside, O_WRONLY | O_CREAT | O_TRUNC, 0666)) >= 0, beside, strerror(errno));
    need(pthread_create(&archiver, NULL, archive, NULL) == 0, "thread", strerror(EAGAIN));
    recover(name, beside);
    for (int i = 0; i < PUSHERS + WORKERS; i++) {
        need(pthread_create(&threads[i], NULL, i < PUSHERS ? push_jobs : work, NULL) == 0, "thread", strerror(EAGAIN));
    }
    for (int i = 0; i < PUSHERS + WORKERS; i++) {
        pthread_join(threads[i], NULL);
        must(i == PUSHERS - 1 ? pq_shut(queue) : PQ_OK); /* all are pushed: workers end where no job is left */
    }
    for (; pq_close(queue, NULL) == PQ_MEMBERS_LEFT; nap()) { /* the archiver is in a call */
    }
    pthread_join(archiver, NULL);
    pq_free(queue, NULL, NULL);
    printf("%" PRIu64 " jobs were left, and %" PRIu64 " are done\n", left, done);
    return 0;
}
