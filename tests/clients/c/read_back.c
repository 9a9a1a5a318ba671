/* A journal that was written is read back, with the same entries and the same items left. A torn last line is left out; a line that may not
   come next, or of which any byte has changed, is refused by its number; and a read that fails says so. */
#include "../check.h"

#include <fcntl.h>
#include <signal.h>
#include <string.h>

enum { KEPT = 65536 };

/* A file with this text, at its begin. */
static int file_of(const char *text, size_t length) {
    FILE *made = tmpfile();
    CHECK(made != NULL);
    int file = dup(fileno(made));
    CHECK(file >= 0 && fclose(made) == 0 && write(file, text, length) == (ssize_t)length && lseek(file, 0, SEEK_SET) == 0);
    return file;
}

/* The length of so many lines at the begin of a text. */
static size_t length_of(const char *text, size_t length, uint64_t lines) {
    const char *end = text;
    for (uint64_t i = 0; i < lines; i++) {
        end = (const char *)memchr(end, '\n', length - (size_t)(end - text)) + 1;
    }
    return (size_t)(end - text);
}

/* Reads this text: the code, and the number of lines. Those before a torn or refused one have this length. */
static pq_code reads(const char *text, size_t length, pq_journal **journal, uint64_t *line) {
    int file = file_of(text, length);
    uint64_t bytes = 99;
    *journal = NULL;
    *line = 99;
    pq_code code = pq_journal_read(file, journal, line, &bytes);
    CHECK(close(file) == 0 && (*journal != NULL) == (code == PQ_OK || code == PQ_TORN));
    CHECK(bytes == length_of(text, length, *line - (code == PQ_NOT_LAWFUL)) && (code != PQ_OK || bytes == length));
    return code;
}

static void has_the_same(pq_journal *a, pq_journal *b) {
    pq_entry one, other;
    pq_item item, same;
    uint64_t before, behind;
    size_t count = pq_count(a, &before);
    CHECK(pq_count(b, &behind) == count && before == behind);
    for (size_t i = 0; i < count; i++) {
        CHECK(pq_read(a, i, &one) == PQ_OK && pq_read(b, i, &other) == PQ_OK && memcmp(&one, &other, sizeof one) == 0);
    }
    while (pq_take_left(a, &item) == PQ_OK) {
        CHECK(pq_take_left(b, &same) == PQ_OK && is_item(same, item.priority, item.value));
    }
    CHECK(pq_take_left(b, &same) == PQ_EMPTY);
}

/* Requests of two members. */
static void makes(pq_queue *queue, uint32_t count) {
    pq_member *members[2] = { joined(queue), joined(queue) };
    pq_item item;
    for (uint32_t i = 0; i < count; i++) {
        CHECK(pq_push(members[i % 2], item_of(i * 2654435761u % 1000, UINT64_MAX - i), PQ_FOREVER, NULL) == PQ_OK);
        if (i % 3 == 0) {
            CHECK(pq_peek(members[0], &item, PQ_FOREVER, NULL) == PQ_OK && pq_pop(members[1], &item, PQ_FOREVER, NULL) == PQ_OK);
        }
    }
    pq_give_back(members[0]);
    pq_give_back(members[1]);
}

static void is_read_back(uint32_t count) {
    pq_queue *queue = opened(2);
    pq_journal *read = NULL, *written;
    uint64_t line = 0;
    int file = file_of("", 0);
    pq_item item;
    CHECK(pq_pop(pq_own(queue), &item, PQ_FOREVER, NULL) == PQ_EMPTY && pq_peek(pq_own(queue), &item, PQ_FOREVER, NULL) == PQ_EMPTY);
    makes(queue, count);
    written = closed(queue);
    CHECK(pq_write(written, file) == PQ_OK && lseek(file, 0, SEEK_SET) == 0 && pq_journal_read(file, &read, &line, NULL) == PQ_OK);
    CHECK(line == pq_count(written, NULL) && close(file) == 0);
    has_the_same(written, read);
    pq_journal_free(written);
    pq_journal_free(read);
}

/* Of more entries than memory keeps all are read, and the last are there. */
static void keeps_the_last(void) {
    pq_queue *queue = opened(2);
    pq_journal *read = NULL, *part, *whole;
    uint64_t line = 0, before = 0, archived = 0;
    int file = file_of("", 0);
    for (int i = 0; i < 3; i++) {
        makes(queue, 20000);
        CHECK(pq_archive(pq_own(queue), archived, PQ_FOREVER, &part) == PQ_OK && pq_write(part, file) == PQ_OK);
        archived += pq_count(part, NULL);
        pq_journal_free(part);
    }
    pq_leave(queue);
    whole = closed(queue);
    CHECK(lseek(file, 0, SEEK_SET) == 0 && pq_journal_read(file, &read, &line, NULL) == PQ_OK && line == archived && close(file) == 0);
    CHECK(pq_count(read, &before) == KEPT && before == archived - KEPT);
    has_the_same(whole, read);
    pq_journal_free(whole);
    pq_journal_free(read);
}

/* As an earlier version wrote it. */
#define PUSHED "1 3 1 push 5 1 pushed\n2 3 4 push 6 2 pushed\n"

/* After these lines this text is lawful, or its last line refused. */
static void is_read(const char *last, pq_code expected) {
    char text[1000];
    const size_t length = (size_t)snprintf(text, sizeof text, PUSHED "%s", last);
    pq_journal *journal;
    uint64_t line;
    CHECK(reads(text, length, &journal, &line) == expected && length_of(text, length, line) == length);
    pq_journal_free(journal);
}

/* Lawful are the last place, numbers that are 0, and serials that are left out, as requests had them to which memory was refused. */
static void reads_what_may_come_next(void) {
    const char *const lawful[] = { "3 2079 1 pop got 5 1\n", "3 0 1 pop got 5 1\n", "3 3 5 push 0 0 pushed\n", "3 4 99 pop got 5 1\n",
        "3 3 9 pop got 5 1\n4 3 99 push 1 1 pushed\n" };
    const char *const unlawful[] = { "4 3 5 pop got 5 1\n", "2 3 5 pop got 5 1\n", "3 3 4 pop got 5 1\n", "3 3 3 pop got 5 1\n",
        "3 3 5 pop got 6 2\n", "3 3 5 pop empty\n", "3 3 5 least least 5 2\n", "garbage\n", "\n", "3 3 5 pop got 5 1 \n",
        "3 3 5 pop got 5 1\r\n", "3 3 5 pop\n", "3 70000 1 pop got 5 1\n", "3,3,5,pop,5,1\n", "{\"number\": 3}\n",
        "3 3 5 push 18446744073709551616 1 pushed\n", "03 3 5 pop got 5 1\n", "3 03 5 pop got 5 1\n", "3 3 05 pop got 5 1\n",
        "3 3 5 pop got 05 1\n", "3 3 5 pop got 5 01\n", "3 3 5 push 00 1 pushed\n", "3 2080 1 pop got 5 1\n",
        "3 3 5 pop got 5 1 3e767fbf\n", "3 3 5 pop got 5 1\n3 3 6 pop got 6 2\n" };
    pq_journal *journal;
    uint64_t line;
    for (size_t i = 0; i < sizeof lawful / sizeof *lawful; i++) {
        is_read(lawful[i], PQ_OK);
    }
    for (size_t i = 0; i < sizeof unlawful / sizeof *unlawful; i++) {
        is_read(unlawful[i], PQ_NOT_LAWFUL);
    }
    CHECK(reads("1\n", 2, &journal, &line) == PQ_NOT_LAWFUL && line == 1 && reads("\n", 1, &journal, &line) == PQ_NOT_LAWFUL && line == 1);
}

enum { LINES = 5 };

/* Writes a journal of so many lines: how long its text is. */
static size_t written(char *text, size_t room) {
    pq_queue *queue = opened(2);
    pq_journal *journal;
    pq_item item;
    int file = file_of("", 0);
    CHECK(pq_pop(pq_own(queue), &item, PQ_FOREVER, NULL) == PQ_EMPTY);
    makes(queue, 3);
    journal = closed(queue);
    CHECK(pq_write(journal, file) == PQ_OK && lseek(file, 0, SEEK_SET) == 0);
    const ssize_t length = read(file, text, room);
    CHECK(length > 0 && (size_t)length < room && close(file) == 0);
    pq_journal_free(journal);
    return (size_t)length;
}

/* Whichever bit of a written journal is changed, its line is refused. One without its last line feed is torn. */
static void finds_each_change(void) {
    char text[1000];
    const size_t length = written(text, sizeof text), step = 20 / requests(20);
    pq_journal *journal;
    uint64_t line = 1, found;
    for (size_t at = 0; at < length; at++) {
        for (unsigned bit = 1; bit < 256 && at % step == 0; bit *= 2) {
            text[at] = (char)(text[at] ^ (char)bit);
            CHECK(reads(text, length, &journal, &found) == PQ_NOT_LAWFUL ? found == line : at + 1 == length && found == line - 1);
            text[at] = (char)(text[at] ^ (char)bit);
            pq_journal_free(journal);
        }
        line += text[at] == '\n';
    }
    CHECK(line == LINES + 1);
}

/* In a text with checksums each line has one. */
static void refuses_a_line_without_a_checksum(void) {
    const pq_entry next = { LINES + 1, 4, 0, PQ_POP, PQ_OK, 0, { 226, UINT64_MAX - 2 }, 0, 0 };
    char text[1000];
    pq_journal *journal;
    uint64_t line;
    size_t length = written(text, sizeof text);
    length += pq_text(&next, text + length);
    CHECK(reads(text, length, &journal, &line) == PQ_OK && line == LINES + 1);
    pq_journal_free(journal);
    length -= strlen(" 12345678");
    text[length - 1] = '\n';
    CHECK(reads(text, length, &journal, &line) == PQ_NOT_LAWFUL && line == LINES + 1);
}

/* A last line of any length is left out, as a crash may leave blocks of zeros there; one that has a line feed is refused. */
static void leaves_a_long_one_out(void) {
    const size_t lengths[] = { 159, 160, 161, 10239, 10240, 10241, 50000 };
    static char text[60000] = PUSHED;
    const size_t begin = strlen(PUSHED);
    for (size_t i = 0; i < 2 * sizeof lengths / sizeof *lengths; i++) {
        const size_t length = begin + lengths[i / 2];
        pq_journal *journal;
        uint64_t line;
        memset(text + begin, i % 2 ? '3' : 0, sizeof text - begin);
        CHECK(reads(text, length, &journal, &line) == PQ_TORN && line == 2 && pq_count(journal, NULL) == 2);
        pq_journal_free(journal);
        text[length] = '\n';
        CHECK(reads(text, length + 1, &journal, &line) == PQ_NOT_LAWFUL && line == 3);
        CHECK(reads(text, length + 20, &journal, &line) == PQ_NOT_LAWFUL && line == 3);
    }
}

static void leaves_a_torn_line_out(void) {
    const char *const torn[] = { "3", "3 3 5 pop got 5 1", "garbage" };
    char text[200];
    pq_journal *journal;
    pq_item item;
    uint64_t line;
    for (size_t i = 0; i < sizeof torn / sizeof *torn; i++) {
        size_t length = (size_t)snprintf(text, sizeof text, PUSHED "%s", torn[i]);
        CHECK(reads(text, length, &journal, &line) == PQ_TORN && line == 2 && pq_count(journal, NULL) == 2);
        CHECK(pq_take_left(journal, &item) == PQ_OK && is_item(item, 5, 1) && pq_take_left(journal, &item) == PQ_OK && is_item(item, 6, 2));
        CHECK(pq_take_left(journal, &item) == PQ_EMPTY);
        pq_journal_free(journal);
    }
    CHECK(reads("1", 1, &journal, &line) == PQ_TORN && line == 0 && pq_count(journal, NULL) == 0);
    pq_journal_free(journal);
    CHECK(reads("", 0, &journal, &line) == PQ_OK && line == 0 && pq_count(journal, NULL) == 0 && pq_take_left(journal, &item) == PQ_EMPTY);
    pq_journal_free(journal);
}

static void a_read_fails(void) {
    pq_journal *journal = (pq_journal *)&journal;
    uint64_t line = 9;
    int folder = open("/", O_RDONLY);
    CHECK(folder >= 0 && pq_journal_read(folder, &journal, NULL, NULL) == PQ_NOT_READ && journal == NULL && close(folder) == 0);
    CHECK(pq_journal_read(folder, &journal, &line, NULL) == PQ_NOT_READ && journal == NULL && line == 0);
}

/* A pipe from which no more can be read now, and that is no end of the file. */
static void a_read_fails_midway(void) {
    static const char text[] = PUSHED "3 3";
    pq_journal *journal = (pq_journal *)&journal;
    uint64_t line = 9;
    int ends[2];
    CHECK(pipe2(ends, O_NONBLOCK) == 0 && write(ends[1], text, sizeof text - 1) == (ssize_t)sizeof text - 1);
    CHECK(pq_journal_read(ends[0], &journal, &line, NULL) == PQ_NOT_READ && journal == NULL && line == 2);
    CHECK(close(ends[0]) == 0 && close(ends[1]) == 0);
}

static void catches(int number) {
    CHECK(number == SIGUSR1);
}

static int ends[2];

static void *writes(void *journal) {
    CHECK(pq_write((pq_journal *)journal, ends[1]) == PQ_OK && close(ends[1]) == 0);
    return NULL;
}

static void *reads_all(void *journal) {
    CHECK(pq_journal_read(ends[0], (pq_journal **)journal, NULL, NULL) == PQ_OK);
    return NULL;
}

/* Signals end neither a read from an empty pipe nor a write to a full one. Where a write fails no more is written. */
static void signals_end_nothing(void) {
    pq_queue *queue = opened(2);
    struct sigaction action = { .sa_handler = catches };
    makes(queue, 2000);
    pq_journal *written = closed(queue), *read = NULL;
    CHECK(sigaction(SIGUSR1, &action, NULL) == 0 && pq_write(written, -1) == PQ_NOT_WRITTEN);
    for (int reads_first = 0; reads_first < 2; reads_first++) {
        CHECK(pipe(ends) == 0);
        pthread_t first = reads_first ? started(reads_all, &read) : started(writes, written);
        for (int i = 0; i < 40; i++) {
            sleep_ms(5);
            CHECK(pthread_kill(first, SIGUSR1) == 0);
        }
        pthread_t second = reads_first ? started(writes, written) : started(reads_all, &read);
        ended(first);
        ended(second);
        CHECK(pq_count(read, NULL) == pq_count(written, NULL) && close(ends[0]) == 0);
        pq_journal_free(read);
    }
    pq_journal_free(written);
}

int main(void) {
    signals_end_nothing();
    is_read_back(0);
    is_read_back(requests(20000));
    keeps_the_last();
    reads_what_may_come_next();
    finds_each_change();
    refuses_a_line_without_a_checksum();
    leaves_a_torn_line_out();
    leaves_a_long_one_out();
    a_read_fails();
    a_read_fails_midway();
    return 0;
}
