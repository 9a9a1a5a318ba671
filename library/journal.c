/*
 * Journals, as entries and as text; and the texts of codes.
 */
#include "inside.h"

#include <errno.h>
#include <stdlib.h>
#include <string.h>
#include <unistd.h>

struct pq_journal {
    core proved;
    uint64_t before; /* how many entries came before these */
    size_t count;
};

/* Memory for a journal is asked for before the queue is closed. */
pq_journal *flatpq_new_journal(void) {
    return calloc(1, sizeof(pq_journal));
}

void flatpq_fill_journal(pq_journal *made, core proved) {
    made->proved = proved;
    (void)pq_core_lines(&made->proved, &made->count);
    (void)pq_core_lines_before(&made->proved, &made->before);
}

typedef struct archiving {
    pq_member *member;
    uint64_t archived;
    core copied;
} archiving;

/* Copies entries. No other thread does it for this one, so it tries the lock often before it rests. */
static pq_code try_archive(void *asked) {
    const int tries = 64;
    archiving *it = asked;
    pq_code code = LOCK_HELD;
    for (int tried = 0; code == LOCK_HELD && tried < tries; tried++) {
        if (flatpq_before(it->member) != LOCK_HELD) {
            code = LEAVE_OUT(pq_core_archive(&it->member->proved, it->archived, &it->copied));
            if (code != LOCK_HELD) {
                flatpq_wake_after(it->member);
            }
        }
    }
    return code;
}

pq_code pq_archive(pq_member *member, uint64_t archived, uint64_t until, pq_journal **journal) {
    archiving it = { member, archived, NULL };
    own *mine;
    pq_journal *made;
    pq_code code = flatpq_begin(&it.member, until, &mine);
    *journal = NULL;
    if (code != PQ_OK) {
        return code;
    }
    made = flatpq_new_journal();
    code = made != NULL ? flatpq_try(try_archive, &it, it.member->queue, until) : PQ_NO_MEMORY;
    if (code == PQ_OK) {
        flatpq_count_archived(it.member->queue, archived);
    }
    flatpq_end(mine);
    if (code == PQ_OK) {
        flatpq_fill_journal(made, it.copied);
        *journal = made;
    } else {
        free(made);
    }
    return code;
}

size_t pq_count(const pq_journal *journal, uint64_t *before) {
    if (before != NULL) {
        *before = journal->before;
    }
    return journal->count;
}

/* Reads by a copy of the handle, as the proved call writes it. So many threads may read one journal. */
pq_code pq_read(const pq_journal *journal, size_t index, pq_entry *entry) {
    core copy = journal->proved;
    core_line line;
    pq_code code = pq_core_read(&copy, index, &line);
    if (code == PQ_OK) {
        entry->number = journal->before + index + 1;
        entry->serial = line.serial;
        entry->place = line.place;
        entry->request = line.request;
        entry->reply = line.reply == KIND_EMPTY ? PQ_EMPTY : PQ_OK;
        entry->unused = 0;
        entry->item = line.request == PQ_PUSH ? line.item : line.reply_item;
        entry->ticket = line.ticket;
        entry->priority = line.request == PQ_RESCHEDULE ? line.item.priority : 0;
    }
    return code;
}

/*
 * Text.
 */

static char *put_word(char *at, const char *word) {
    size_t length = strlen(word);
    memcpy(at, word, length);
    return at + length;
}

/* Each line has it up to seven times: as a call it keeps the library small. */
static __attribute__((noinline)) char *put_number(char *at, uint64_t number) {
    char digits[20];
    size_t first = sizeof digits;
    do {
        digits[--first] = (char)('0' + number % 10);
        number /= 10;
    } while (number != 0);
    memcpy(at, &digits[first], sizeof digits - first);
    return at + (sizeof digits - first);
}

static char *put_item(char *at, pq_item item) {
    *at++ = ' ';
    at = put_number(at, item.priority);
    *at++ = ' ';
    return put_number(at, item.value);
}

static char *put_request(char *at, const pq_entry *entry) {
    const pq_item move = { entry->ticket, entry->priority };
    switch (entry->request) {
    case PQ_PUSH:
        return put_item(put_word(at, " push"), entry->item);
    case PQ_POP:
        return put_word(at, " pop");
    case PQ_PEEK:
        return put_word(at, " least");
    case PQ_REMOVE:
        return put_number(put_word(at, " remove "), entry->ticket);
    case PQ_SHUTS:
        return put_word(at, " shut");
    default:
        return put_item(put_word(at, " move"), move);
    }
}

static char *put_reply(char *at, const pq_entry *entry) {
    if (entry->request == PQ_SHUTS) {
        return at;
    }
    if (entry->request == PQ_PUSH) {
        return put_word(at, " pushed");
    }
    if (entry->reply == PQ_EMPTY) {
        return put_word(at, " empty");
    }
    return put_item(put_word(at, entry->request == PQ_PEEK ? " least" : " got"), entry->item);
}

/* CRC-32C (Castagnoli, Braeuer and Herrmann 1993), by halves of bytes. */
static uint32_t checksum(const char *text, size_t length) {
    static const uint32_t of_half[16] = { 0x00000000, 0x105ec76f, 0x20bd8ede, 0x30e349b1, 0x417b1dbc, 0x5125dad3, 0x61c69362, 0x7198540d,
        0x82f63b78, 0x92a8fc17, 0xa24bb5a6, 0xb21572c9, 0xc38d26c4, 0xd3d3e1ab, 0xe330a81a, 0xf36e6f75 };
    uint32_t sum = UINT32_MAX;
    for (size_t i = 0; i < length; i++) {
        sum ^= (uint8_t)text[i];
        sum = sum >> 4 ^ of_half[sum & 15];
        sum = sum >> 4 ^ of_half[sum & 15];
    }
    return ~sum;
}

char *flatpq_put_checksum(char *at, const char *text, size_t length) {
    const uint32_t sum = checksum(text, length);
    *at++ = ' ';
    for (int shift = 28; shift >= 0; shift -= 4) {
        *at++ = "0123456789abcdef"[sum >> shift & 15];
    }
    return at;
}

/* `flatpq audit` reads this text without the checksum. It calls a peek `least`, and a reschedule `move`. */
size_t pq_text(const pq_entry *entry, char text[PQ_TEXT_ROOM]) {
    char *at = put_number(text, entry->number);
    *at++ = ' ';
    at = put_number(at, entry->place);
    *at++ = ' ';
    at = put_reply(put_request(put_number(at, entry->serial), entry), entry);
    at = flatpq_put_checksum(at, text, (size_t)(at - text));
    *at++ = '\n';
    *at = 0;
    return (size_t)(at - text);
}

static pq_code write_all(int file, const char *text, size_t length) {
    while (length > 0) {
        ssize_t written = write(file, text, length);
        if (written < 0 && errno == EINTR) {
            continue;
        }
        if (written <= 0) {
            return PQ_NOT_WRITTEN;
        }
        text += written;
        length -= (size_t)written;
    }
    return PQ_OK;
}

pq_code pq_write(const pq_journal *journal, int file) {
    char page[64 * PQ_TEXT_ROOM];
    pq_code code = PQ_OK;
    size_t index = 0;
    while (index < journal->count && code == PQ_OK) {
        size_t length = 0;
        pq_entry entry;
        while (index < journal->count && length + PQ_TEXT_ROOM <= sizeof page && code == PQ_OK) {
            code = pq_read(journal, index, &entry);
            length += code == PQ_OK ? pq_text(&entry, page + length) : 0;
            index++;
        }
        code = code == PQ_OK ? write_all(file, page, length) : code;
    }
    return code;
}

/*
 * What is left, and the end.
 */

pq_code pq_take_left(pq_journal *journal, pq_item *item) {
    pq_code code = LEAVE_OUT(pq_core_take(&journal->proved, item));
    if (code != PQ_OK) {
        return PQ_EMPTY;
    }
    if (IS_WATCHED) {
        flatpq_tsan_pop(*item);
    }
    return PQ_OK;
}

void pq_journal_free(pq_journal *journal) {
    if (journal != NULL) {
        pq_code code = LEAVE_OUT(pq_core_journal_close(&journal->proved));
        (void)code;
        free(journal);
    }
}

/* By the codes. */
static const char *const texts[] = {
    [PQ_OK] = "done",
    [PQ_BAD_OPTION] = "an option or a number of entries is out of its range",
    [PQ_NO_MEMORY] = "memory was refused",
    [PQ_JOURNAL_FULL] = "the journal is full",
    [PQ_EXHAUSTED] = "the member has made all its requests",
    [PQ_NOT_WRITTEN] = "a write failed",
    [PQ_MEMBERS_LEFT] = "a member was not given back, or is in a call",
    [PQ_ALL_JOINED] = "all members are in use",
    [PQ_NO_MEMBER] = "the member is NULL, or another copy of the library has opened the queue",
    [PQ_NO_ENTRY] = "the journal has no such entry",
    [PQ_EMPTY] = "the queue is empty",
    [PQ_FORGOTTEN] = "some of the entries are no longer in memory",
    [PQ_NOT_DUE] = "the first item is not due yet",
    [PQ_SHUT] = "the queue is shut",
    [PQ_UNARCHIVED] = "an entry would be forgotten that is not archived",
    [PQ_FULL] = "the queue is full",
    [PQ_NOT_LAWFUL] = "a line is no entry that may come next",
    [PQ_TORN] = "the last line is cut off",
    [PQ_NOT_READ] = "a read failed",
    [PQ_NO_TIMER] = "the descriptor is no timerfd",
    [PQ_GONE] = "no item waits under this ticket",
    [PQ_NO_TICKETS] = "the queue has no tickets",
    [PQ_FORKED] = "a forked child can't use a queue",
    [PQ_PROCESSOR] = "the processor has no SSE4.1",
    [PQ_TIMED_OUT] = "timed out",
    [PQ_CLOSED] = "the queue is closed",
};

const char *pq_code_text(uint32_t code) {
    const char *text = code < sizeof texts / sizeof *texts ? texts[code] : NULL;
    return text != NULL ? text : "unknown code";
}
