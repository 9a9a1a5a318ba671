/* Reads bytes as a journal, for libFuzzer: what pq_journal_read takes it writes back, and what it refuses can be cut off.
 *
 * Most inputs begin as the journal of a queue with a few random requests. Then a line is mutated, moved or dropped, mostly with a checksum that fits
 * it, so that the line itself is what has to be refused.
 */
#ifndef _GNU_SOURCE
#define _GNU_SOURCE
#endif
#include "flatpq.h"

#include <stdio.h>
#include <stdlib.h>
#include <string.h>
#include <sys/mman.h>
#include <unistd.h>

enum { CHECKSUM = 9, ROOM = 1 << 16 };

size_t LLVMFuzzerMutate(uint8_t *data, size_t size, size_t room);
size_t LLVMFuzzerCustomMutator(uint8_t *data, size_t size, size_t room, unsigned int seed);
int LLVMFuzzerTestOneInput(const uint8_t *data, size_t size);

static void need(int holds, const char *what) {
    if (!holds) {
        fprintf(stderr, "not so: %s\n", what);
        abort();
    }
}

static int file_of(const uint8_t *data, size_t size) {
    int file = memfd_create("journal", 0);
    need(file >= 0 && write(file, data, size) == (ssize_t)size && lseek(file, 0, SEEK_SET) == 0, "a file is written");
    return file;
}

/* Writes a journal as text: its length. */
static size_t written(const pq_journal *journal, uint8_t *text, size_t room) {
    int file = memfd_create("written", 0);
    ssize_t size;
    need(file >= 0 && pq_write(journal, file) == PQ_OK && lseek(file, 0, SEEK_SET) == 0, "a journal is written");
    size = read(file, text, room);
    need(size >= 0, "it is read");
    close(file);
    return (size_t)size;
}

static pq_code read_back(const uint8_t *data, size_t size, pq_journal **journal, uint64_t *bytes) {
    int file = file_of(data, size);
    uint64_t line;
    pq_code code = pq_journal_read(file, journal, &line, bytes);
    close(file);
    need(*bytes <= size, "no more bytes are read than there are");
    return code;
}

/* Takes the checksums of a text away, which an older version did not write: its length. */
static size_t without_checksums(uint8_t *text, size_t size) {
    size_t to = 0;
    for (size_t from = 0; from < size;) {
        size_t length = (size_t)((const uint8_t *)memchr(text + from, '\n', size - from) - (text + from));
        memmove(text + to, text + from, length - CHECKSUM);
        to += length - CHECKSUM;
        text[to++] = '\n';
        from += length + 1;
    }
    return to;
}

int LLVMFuzzerTestOneInput(const uint8_t *data, size_t size) {
    static uint8_t text[4 * ROOM];
    pq_journal *journal, *cut;
    uint64_t bytes, all;
    pq_code code = read_back(data, size, &journal, &bytes);
    need(code == PQ_OK || code == PQ_TORN || code == PQ_NOT_LAWFUL, "the code is one of these");
    need((journal != NULL) == (code != PQ_NOT_LAWFUL) && (code != PQ_OK || bytes == size), "a journal is there unless it is refused");
    if (journal == NULL) {
        need(read_back(data, bytes, &cut, &all) == PQ_OK && all == bytes, "a file is read that was cut before the refused line");
        pq_journal_free(cut);
        return 0;
    }
    all = written(journal, text, sizeof text);
    if (all != bytes) {
        all = without_checksums(text, all);
    }
    need(all == bytes && memcmp(text, data, bytes) == 0, "what was read is what is written back");
    pq_journal_free(journal);
    return 0;
}

/* Writes the journal of a queue with a few requests: its length. */
static size_t new_journal(uint8_t *data, size_t room, unsigned int seed) {
    const pq_options options = { 1, PQ_FILLS, 64, 1, 0, 0, 0 };
    pq_queue *queue;
    pq_journal *journal;
    size_t size;
    need(pq_open(&options, &queue) == PQ_OK, "a queue is opened");
    for (unsigned int i = 0; i < 1 + seed % 24; i++, seed = seed * 1103515245u + 12345u) {
        pq_item item = { seed >> 24, seed >> 16 };
        pq_code code = seed >> 30 == 0 ? pq_pop(pq_own(queue), &item, PQ_NOW, NULL)
                       : seed >> 30 == 1 ? pq_remove(pq_own(queue), 1 + seed % 8, &item, PQ_NOW, NULL)
                       : seed >> 30 == 2 ? pq_reschedule(pq_own(queue), 1 + seed % 8, seed % 16, PQ_NOW, NULL)
                                         : pq_push(pq_own(queue), item, PQ_NOW, NULL);
        (void)code;
    }
    need(pq_close(queue, &journal) == PQ_OK, "the queue is closed");
    size = written(journal, data, room);
    pq_journal_free(journal);
    pq_free(queue, NULL, NULL);
    return size;
}

/* CRC-32C, bit by bit. */
static uint32_t checksum(const uint8_t *text, size_t length) {
    uint32_t sum = UINT32_MAX;
    for (size_t i = 0; i < length; i++) {
        sum ^= text[i];
        for (int bit = 0; bit < 8; bit++) {
            sum = sum >> 1 ^ (sum & 1 ? 0x82f63b78u : 0);
        }
    }
    return ~sum;
}

/* Mutates one line of the text, and gives it a checksum that fits, or any. */
size_t LLVMFuzzerCustomMutator(uint8_t *data, size_t size, size_t room, unsigned int seed) {
    uint8_t line[2 * PQ_TEXT_ROOM];
    size_t begin = size > 0 ? seed % size : 0, end, length;
    if (size < 2 || seed % 8 == 0) {
        return new_journal(data, room, seed);
    }
    while (begin > 0 && data[begin - 1] != '\n') {
        begin--;
    }
    for (end = begin; end < size && data[end] != '\n'; end++) {
    }
    length = end - begin > CHECKSUM ? end - begin - CHECKSUM : end - begin;
    if (length > PQ_TEXT_ROOM || seed % 8 == 1) {
        return LLVMFuzzerMutate(data, size, room);
    }
    memcpy(line, data + begin, length);
    length = LLVMFuzzerMutate(line, length, PQ_TEXT_ROOM);
    length += (size_t)sprintf((char *)line + length, " %08x", checksum(line, length));
    if (size - (end - begin) + length > room) {
        return size;
    }
    memmove(data + begin + length, data + end, size - end);
    memcpy(data + begin, line, length);
    return size - (end - begin) + length;
}
