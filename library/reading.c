/*
 * Journals that are read back from text.
 */
#include "inside.h"

#include <errno.h>
#include <stdlib.h>
#include <string.h>
#include <sys/syscall.h>
#include <unistd.h>

enum { PLACES = 2080 };

/* A file that is read in blocks. */
typedef struct reader {
    int file;
    core replay;
    uint64_t lines;    /* read so far, the one that is refused among them */
    uint64_t bytes;    /* of those that were replayed, with their line feeds */
    int has_checksums; /* as its first line has one: then each has to */
    int is_long;       /* a piece is left out that is longer than a line */
    size_t begin, end; /* where in `text` what is not replayed yet stands */
    char text[64 * PQ_TEXT_ROOM];
} reader;

/* Reads a block after what is there: how many bytes; 0 at the end of the file, and -1 where the read failed. A thread that was cancelled here
   would leave memory allocated, so this is no cancellation point. */
static ssize_t read_block(reader *it) {
    ssize_t count;
    memmove(it->text, it->text + it->begin, it->end - it->begin);
    it->end -= it->begin;
    it->begin = 0;
    do {
        count = syscall(SYS_read, it->file, it->text + it->end, sizeof it->text - it->end);
    } while (count < 0 && errno == EINTR);
    it->end += count > 0 ? (size_t)count : 0;
    return count;
}

/* How long a line is before its checksum; 0 where it does not end in the right one. */
static size_t without_checksum(const char *line, size_t length) {
    char word[CHECKSUM_LENGTH];
    if (length <= sizeof word) {
        return 0;
    }
    length -= sizeof word;
    flatpq_put_checksum(word, line, length);
    return memcmp(word, line + length, sizeof word) == 0 ? length : 0;
}

/* Whether a line that was replayed is as a queue writes it: the replay also reads numbers with leading zeros, and places of 16 bits. */
static int is_as_written(const char *line, size_t length) {
    for (size_t i = 0; i + 1 < length; i++) {
        if (line[i] == '0' && line[i + 1] != ' ' && (i == 0 || line[i - 1] == ' ')) {
            return 0;
        }
    }
    return strtoul(line + strcspn(line, " "), NULL, 10) < PLACES;
}

/* Earlier versions wrote no checksums. The first line of such a text ends in a word that is none, as an empty queue has no item to return.
   The replay refuses an empty line. */
static pq_code replay_line(reader *it, const char *line, size_t length) {
    pq_code code;
    it->lines++;
    if (length >= PQ_TEXT_ROOM || it->is_long) {
        return PQ_NOT_LAWFUL;
    }
    if (it->lines == 1) {
        it->has_checksums = without_checksum(line, length) > 0;
    }
    length = it->has_checksums ? without_checksum(line, length) : length;
    code = LEAVE_OUT(pq_core_replay_line(&it->replay, (const uint8_t *)line, length));
    return code != PQ_OK || is_as_written(line, length) ? code : PQ_NOT_LAWFUL;
}

/* Replays the whole lines that are there. A piece that is longer than a line is left out: it is refused once its line feed comes. */
static pq_code replay_lines(reader *it) {
    pq_code code = PQ_OK;
    while (code == PQ_OK) {
        const char *begin = it->text + it->begin, *feed = memchr(begin, '\n', it->end - it->begin);
        size_t length;
        if (feed == NULL) {
            it->is_long |= it->end - it->begin >= PQ_TEXT_ROOM;
            it->begin = it->is_long ? it->end : it->begin;
            return PQ_OK;
        }
        length = (size_t)(feed - begin);
        code = replay_line(it, begin, length);
        it->begin += length + 1;
        it->bytes += code == PQ_OK ? length + 1 : 0;
    }
    return code;
}

static pq_code replay_file(reader *it) {
    pq_code code = PQ_OK;
    ssize_t count = 1;
    while (code == PQ_OK && (count = read_block(it)) > 0) {
        code = replay_lines(it);
    }
    if (code != PQ_OK) {
        return code;
    }
    if (count < 0) {
        return PQ_NOT_READ;
    }
    return it->is_long || it->begin < it->end ? PQ_TORN : PQ_OK;
}

/* Replays the file, and ends that also where it was refused. */
static pq_code read_all(reader *it, core *journal) {
    pq_code code = LEAVE_OUT(pq_core_replay_open(&it->replay));
    if (code == PQ_OK) {
        pq_code ended;
        code = replay_file(it);
        ended = LEAVE_OUT(pq_core_replay_end(&it->replay, journal));
        (void)ended;
    }
    return code;
}

pq_code pq_journal_read(int file, pq_journal **journal, uint64_t *line, uint64_t *bytes) {
    reader it;
    core ended = NULL;
    pq_journal *made = NULL;
    pq_code code = flatpq_may_read();
    it.file = file;
    it.replay = NULL;
    it.lines = it.bytes = it.begin = it.end = 0;
    it.has_checksums = it.is_long = 0;
    if (code == PQ_OK) {
        made = flatpq_new_journal();
        code = made != NULL ? read_all(&it, &ended) : PQ_NO_MEMORY;
    }
    if (made != NULL) {
        flatpq_fill_journal(made, ended);
    }
    if (code != PQ_OK && code != PQ_TORN) {
        pq_journal_free(made);
        made = NULL;
    }
    *journal = made;
    if (line != NULL) {
        *line = it.lines;
    }
    if (bytes != NULL) {
        *bytes = it.bytes;
    }
    return code;
}
