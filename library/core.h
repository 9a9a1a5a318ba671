/*
 * The proved calls, which the library is built over. None of them waits, sleeps or wakes.
 *
 * A handle is in one call at a time, and only these calls write it.
 */
#ifndef FLATPQ_CORE_H
#define FLATPQ_CORE_H

#include "flatpq.h"

typedef struct core_inside *core;

/* A step found that another thread carries out requests, and did nothing; the answer is not the usual one; or what it posted has no answer yet. No
   public call returns these codes. */
#define LOCK_HELD ((pq_code)8)
#define ANSWERED ((pq_code)14)
#define ENTERED ((pq_code)15)
#define WATCHES ((pq_code)16)
#define NOT_ANSWERED ((pq_code)43)

enum { KIND_PUSHED, KIND_POPPED, KIND_FIRST, KIND_EMPTY, KIND_JOURNAL_FULL, KIND_NO_MEMORY, KIND_SHUT, KIND_UNARCHIVED, KIND_FULL };

/* The answer to a request: the number of its journal entry, 0 where it has none, and the item of KIND_POPPED and KIND_FIRST. */
typedef struct core_answer {
    uint32_t kind;
    uint32_t owes_wake; /* not 0: others are to be woken (pq_core_take_wakes) */
    uint64_t number;
    pq_item item;
} core_answer;

/* An entry of a journal. Its request is one of pq_request; of PQ_RESCHEDULE the item has the new priority, and value 0. */
typedef struct core_line {
    uint64_t serial;
    uint32_t place;
    uint32_t request;
    pq_item item;
    uint32_t reply;
    pq_item reply_item;
    uint64_t ticket;
} core_line;

/* A batch: how many of its requests took effect, the number of the first one's journal entry, and the code that refused the next, or 0. */
typedef struct core_batch {
    uint64_t done;
    uint64_t first;
    uint32_t refused;
    uint32_t owes_wake;
} core_batch;

/* A batch of pops, and what a look finds after it: KIND_FIRST, KIND_EMPTY, KIND_SHUT (the queue is empty too) or KIND_JOURNAL_FULL. */
typedef struct core_popped {
    core_batch batch;
    core_answer next;
} core_popped;

/* What refuses a request of a batch: this, or a code. */
enum { REFUSED_NO_MEMORY = 9 };

_Static_assert(sizeof(core_answer) == 32 && sizeof(core_line) == 64 && sizeof(core_batch) == 24 && sizeof(core_popped) == 56 &&
                   sizeof(pq_code) == 4,
               "the layouts of the proved calls");

/* Queues. `number` stands for the queue in each of its members. */
pq_code pq_core_open(uint32_t threads, uint32_t keeping, uint32_t entries, uint64_t most, uint32_t tickets, core *queue);
pq_code pq_core_join(core *queue, core *member, uint64_t number);
pq_code pq_core_give_back(core *queue, core *member, uint64_t number);
pq_code pq_core_close(core *queue, core *journal);

/* Members. */
pq_code pq_core_place(core *member, uint32_t *place);
/* The next three return PQ_OK where the request was carried out, the answer is KIND_PUSHED, KIND_POPPED or KIND_FIRST, and nobody is to be woken: then of
   the answer only the number is written. ANSWERED: else, and all of the answer is written, but no item. A peek adds no entry: the number in its
   answer, KIND_FIRST or KIND_EMPTY, is how many entries the journal has. */
pq_code pq_core_try_push(core *member, uint64_t priority, uint64_t value, core_answer *answer);
pq_code pq_core_try_pop(core *member, pq_item *item, core_answer *answer);
pq_code pq_core_try_peek(core *member, pq_item *item, core_answer *answer);
pq_code pq_core_post(core *member, uint32_t request, uint64_t priority, uint64_t value);
pq_code pq_core_step_answer(core *member, core_answer *answer);
pq_code pq_core_try_pop_or_look(core *member, uint32_t takes, uint64_t priority, core_answer *answer);
pq_code pq_core_try_remove(core *member, uint64_t ticket, core_answer *answer);
pq_code pq_core_try_reschedule(core *member, uint64_t ticket, uint64_t priority, core_answer *answer);
pq_code pq_core_try_shut(core *member, core_answer *answer);
pq_code pq_core_try_count(core *member, uint64_t *count, uint64_t *peak, uint32_t *owes_wake);
pq_code pq_core_try_push_many(core *member, const pq_item *items, size_t count, core_batch *batch);
pq_code pq_core_try_pop_many(core *member, uint64_t bound, pq_item *items, size_t room, core_popped *popped);
pq_code pq_core_archive(core *member, uint64_t archived, core *journal);
/* Those that wait, by numbers below 64. The next two take the entry of this number out, look, and where there is nothing to take, or no room, enter
   again: ENTERED, or WATCHES where the thread is to come back by itself once the first item is due, or its alarm to ring then. PQ_OK: it is out. */
pq_code pq_core_take_or_wait(core *member, uint32_t number, uint64_t priority, uint32_t wants, core_answer *answer);
pq_code pq_core_push_or_wait(core *member, uint32_t number, uint64_t priority, uint64_t value, uint32_t listens, core_answer *answer);
pq_code pq_core_leave(core *member, uint64_t numbers);
uint64_t pq_core_take_wakes(core *member); /* the numbers of those that the calls of this member have woken since */

/* Journals. */
pq_code pq_core_lines(core *journal, size_t *count);
pq_code pq_core_lines_before(core *journal, uint64_t *count);
pq_code pq_core_read(core *journal, size_t index, core_line *line);
pq_code pq_core_take(core *journal, pq_item *item);
pq_code pq_core_journal_close(core *journal);

/* Journals read back from their text. Code 54: the text is no line that may come next. */
pq_code pq_core_replay_open(core *replay);
pq_code pq_core_replay_line(core *replay, const uint8_t *text, size_t length);
pq_code pq_core_replay_end(core *replay, core *journal);

#endif
