/*
 * flatpq: a priority queue that threads share, for C, C++ and any language that can call C.
 *
 * An item has a priority and a value, of 64 bits each. The smallest priority comes out first, and equal ones in the order in which they were
 * pushed or moved there. Each request that takes effect has an entry in the queue's journal. Entries are numbered in the order of effect.
 *
 *     pq_queue *queue;
 *     pq_item item = { 3, 7 };
 *     if (pq_open(NULL, &queue) == PQ_OK && pq_push(pq_own(queue), item, PQ_FOREVER, NULL) == PQ_OK) ..
 *
 * A call goes through a member of the queue. That of pq_own(queue) is the calling thread's own, so any number of threads may call through it.
 * A program that wants to move a member between threads joins one itself (pq_join).
 *
 * Most calls take `until`, the time until which they may wait for the queue's lock, a member, an item or room. It is a time of pq_now,
 * PQ_NOW (never), or PQ_FOREVER. PQ_TIMED_OUT: the call did nothing, and will do nothing; of pq_push_many the first *done pushes stay. Only pq_write
 * is a cancellation point.
 *
 * All that a thread does before it pushes or moves an item happens before what another does after a call that returned it. So a value may be
 * a pointer.
 *
 * Unchecked preconditions: pointers are valid. A joined member is in one call at a time. No call is made from a signal handler, or left by
 * longjmp. Nothing is used after it was freed, except joined members that are not yet given back. A queue, and pq_own(queue), may be in calls of
 * many threads. A thread that dies in a call may keep the queue's lock: then calls with a deadline time out, and others hang. If it keeps another
 * lock of the library, any call may hang.
 */
#ifndef FLATPQ_H
#define FLATPQ_H
#include <stddef.h>
#include <stdint.h>

/* A call whose code a program has to look at. In C++17 and C23 a cast to void drops the code without a warning. */
#if (defined(__cplusplus) && __cplusplus >= 201703L) || (defined(__STDC_VERSION__) && __STDC_VERSION__ > 201710L)
#define PQ_CHECKED [[nodiscard]]
#else
#define PQ_CHECKED __attribute__((warn_unused_result))
#endif

#ifdef __cplusplus
extern "C" {
#endif
#pragma GCC visibility push(default)

/* The version of this header: 10000 * major + 100 * minor + patch. */
#define PQ_VERSION_MAJOR 0
#define PQ_VERSION_MINOR 9
#define PQ_VERSION_PATCH 0
#define PQ_VERSION (10000u * PQ_VERSION_MAJOR + 100u * PQ_VERSION_MINOR + PQ_VERSION_PATCH)

typedef struct pq_queue pq_queue;
typedef struct pq_member pq_member;
typedef struct pq_journal pq_journal;

/* What a call returns. A refused call changes nothing, unless its comment says otherwise. */
typedef enum pq_code {
    PQ_OK = 0,
    PQ_BAD_OPTION = 5,    /* an option, or a number of entries, is out of its range */
    PQ_NO_MEMORY = 6,     /* memory was refused, or the queue has 4,294,967,295 items */
    PQ_JOURNAL_FULL = 10, /* the journal is full, and stays full */
    PQ_EXHAUSTED = 11,    /* the member has made all its requests: 2^56, or 2^24 - 1 if the journal fills */
    PQ_NOT_WRITTEN = 31,  /* a write failed */
    PQ_MEMBERS_LEFT = 40, /* a member was not given back, or is in a call */
    PQ_ALL_JOINED = 41,   /* as many members are in use as the queue was opened for, or as many listen as may */
    PQ_NO_MEMBER = 42,    /* the member is NULL, or another copy of the library has opened the queue */
    PQ_NO_ENTRY = 46,     /* the journal has no such entry */
    PQ_EMPTY = 48,        /* the queue has no item; of a call that listens also: others had the lock, or all members */
    PQ_FORGOTTEN = 49,    /* some of these entries are no longer in memory */
    PQ_NOT_DUE = 50,      /* the priority of the first item is above the bound: the item stays */
    PQ_SHUT = 51,         /* the queue is shut, so it takes no push; or it is shut and empty */
    PQ_UNARCHIVED = 52,   /* the request could make memory forget an entry that is not archived */
    PQ_FULL = 53,         /* the queue has as many items as it may have */
    PQ_NOT_LAWFUL = 54,   /* a line of text is no entry that may come next */
    PQ_TORN = 55,         /* the last line of the text is cut off, as after a crash */
    PQ_NOT_READ = 56,     /* a read failed */
    PQ_NO_TIMER = 57,     /* the descriptor is no timerfd */
    PQ_GONE = 58,         /* no item waits under this ticket */
    PQ_NO_TICKETS = 59,   /* the queue was not opened with tickets */
    PQ_FORKED = 60,       /* this process is a forked child of one that had opened a queue */
    PQ_PROCESSOR = 61,    /* the processor has no SSE4.1 */
    PQ_TIMED_OUT = 62,    /* other threads had the lock, or all members, until then; or the entry was not archived (pq_wait_archived) */
    PQ_CLOSED = 63        /* the queue is closed */
} pq_code;

/* The text of a code. */
const char *pq_code_text(uint32_t code);

/* The version of the library. It fits a header of the same major and minor version that is not newer: a patch may add calls. */
uint32_t pq_version(void);

/* Times are nanoseconds of CLOCK_MONOTONIC. pq_after: so many from now; PQ_FOREVER if there is no such time. */
#define PQ_NOW 0u
#define PQ_FOREVER UINT64_MAX
uint64_t pq_now(void);
uint64_t pq_after(uint64_t nanoseconds);

typedef struct pq_item {
    uint64_t priority;
    uint64_t value;
} pq_item;

/* Opening and ending a queue: any thread may make these calls at any time. What happens to the journal's older entries: */
enum pq_keeping {
    PQ_FORGETS = 0, /* memory keeps the last `entries` of them, 16 to 16777216; 0 is 1024 */
    PQ_REFUSES = 1, /* the same, 0 is 65536; but a request that would make memory forget an unarchived entry is refused (PQ_UNARCHIVED) */
    PQ_FILLS = 2    /* the journal has room for `entries`, 1 to 1048576, and then stays full (PQ_JOURNAL_FULL) */
};

/* All zero is a good choice. An entry takes 64 bytes. */
typedef struct pq_options {
    uint32_t members; /* how many members there may be at once: 1 to 64; 0 is 64 */
    uint32_t keeping; /* of enum pq_keeping */
    uint32_t entries;
    uint32_t tickets;    /* 1: items can be removed or moved by their tickets (pq_remove); pushes and pops take longer. 0: no tickets */
    uint64_t time_zero;  /* for what is due: the priority of the time 0 of pq_now */
    uint64_t time_unit;  /* for what is due: nanoseconds from one priority to the next; 0 means 1 */
    uint64_t most_items; /* how many items the queue may have: a push waits until there are fewer (pq_push); 0: no bound */
} pq_options;

/* Opens a queue. options may be NULL, which is all zero.
   PQ_OK; PQ_BAD_OPTION, PQ_NO_MEMORY, PQ_FORKED, PQ_PROCESSOR: *queue is NULL. */
PQ_CHECKED pq_code pq_open(const pq_options *options, pq_queue **queue);

/* Shuts the queue down for good: each push that begins from now on is refused (PQ_SHUT), and so are those that wait for room. Threads that wait
   for an item take what is left, and return PQ_SHUT once nothing is left; no item comes after that. The shut has an entry (PQ_SHUTS). A full
   journal gets none, and refuses pushes as before. The call waits for nothing. If it finds all members in use, or the lock held, the next call by
   a member makes the shut first, with that call's deadline; all threads that wait are woken to call so. If the shut's entry could make memory
   forget an unarchived one, it is added as soon as more has been archived. Until then each request, also a push, is refused (PQ_UNARCHIVED). It
   may be called again. PQ_OK; PQ_CLOSED, PQ_FORKED. */
pq_code pq_shut(pq_queue *queue);

/* 1: the queue is shut, so each push that begins from now on is refused. 0: it was not shut when the call began; or in a forked child. */
int pq_is_shut(pq_queue *queue);

/* Closes the queue. *journal gets its journal and the items that are left in it; journal may be NULL. The call takes back the own members
   of threads that are in no call. PQ_MEMBERS_LEFT also while a thread waits or listens.
   PQ_OK; PQ_MEMBERS_LEFT, PQ_NO_MEMORY: the queue stays open; PQ_CLOSED, PQ_FORKED. */
PQ_CHECKED pq_code pq_close(pq_queue *queue, pq_journal **journal);

/* Frees the queue, closed or not, or NULL. The program must not use it any more. Memory is freed once joined members are given back, calls have
   returned, and threads that listen by pq_own have ended. Then the thread that frees it calls `left`, unless that is NULL, with each item that
   was left. Calls that `left` makes by `queue` return PQ_CLOSED. No thread that waits for an item or room is woken: shut the queue first. */
void pq_free(pq_queue *queue, void (*left)(void *context, pq_item item), void *context);

/* The calling thread's own member, as a pointer that all threads may share. A thread gets its member at its first call, and gives it back when
   it ends. If all members are in use, a call takes over one whose thread is in no call, or waits for one until its `until`. A thread that
   waits for an item or for room, or listens, holds none meanwhile. So any number of threads may call, and wait. */
pq_member *pq_own(pq_queue *queue);

/* Gives the calling thread's own member back now, if the thread has one, and ends its listening. */
void pq_leave(pq_queue *queue);

/* Joins the queue. If all members are in use, it takes over one whose thread is in no call (pq_own). Else it waits until `until` for one that is
   given back. The member may move between threads. PQ_OK; PQ_ALL_JOINED, PQ_NO_MEMBER, PQ_NO_MEMORY, PQ_CLOSED, PQ_FORKED: *member is NULL. */
PQ_CHECKED pq_code pq_join(pq_queue *queue, uint64_t until, pq_member **member);

/* Gives a joined member back, in any thread. member may be NULL. */
void pq_give_back(pq_member *member);

/* The place of the member, by which journal entries name it: 0 to 2079, and no two members have the same at once. Of pq_own it is that of
   the thread's member, or UINT32_MAX if the thread has none at the moment. */
uint32_t pq_place(pq_member *member);

/* Requests, peeks and counts. Each of these calls may also return PQ_NO_MEMBER, PQ_FORKED, PQ_EXHAUSTED, PQ_JOURNAL_FULL or PQ_UNARCHIVED. It may
   return PQ_TIMED_OUT unless `until` is PQ_FOREVER; a call by pq_own also PQ_CLOSED or PQ_NO_MEMORY. A call without `until` doesn't wait. number may
   be NULL; else *number is the number of the journal entry, if there is one. The first that is true refuses a request: PQ_JOURNAL_FULL, PQ_SHUT (a
   push), PQ_UNARCHIVED, PQ_FULL (a push), PQ_NO_MEMORY. If nothing is there to take, a take is refused only for PQ_JOURNAL_FULL, or for PQ_UNARCHIVED
   while a shut waits for the archive. */

/* Puts an item in. If the queue has as many items as pq_options allow, the call waits until one goes out.
   PQ_OK; PQ_FULL: there was no room until then; PQ_SHUT, PQ_NO_MEMORY. */
PQ_CHECKED pq_code pq_push(pq_member *member, pq_item item, uint64_t until, uint64_t *number);

/* Takes the first item out. It doesn't wait for an item. PQ_OK; PQ_EMPTY, which has an entry too. */
PQ_CHECKED pq_code pq_pop(pq_member *member, pq_item *item, uint64_t until, uint64_t *number);

/* Returns the first item, which stays. It has no entry. entries may be NULL; else *entries is how many entries came before the peek.
   PQ_OK; PQ_EMPTY; never PQ_EXHAUSTED, PQ_JOURNAL_FULL or PQ_UNARCHIVED. */
PQ_CHECKED pq_code pq_peek(pq_member *member, pq_item *item, uint64_t until, uint64_t *entries);

/* Takes the first item out if its priority is at most this one. PQ_OK; PQ_NOT_DUE: *item is the first item, and stays; PQ_EMPTY. Only PQ_OK
   has an entry, so polling by this call leaves none. */
PQ_CHECKED pq_code pq_pop_due(pq_member *member, uint64_t priority, pq_item *item, uint64_t until, uint64_t *number);

/* Waits for an item, and takes the first one out. PQ_OK; PQ_EMPTY: none came until then; PQ_SHUT: the queue is shut and empty. Only PQ_OK has an
   entry. A thread that waits by a joined member keeps that. */
PQ_CHECKED pq_code pq_take(pq_member *member, pq_item *item, uint64_t until, uint64_t *number);

/* Waits until the first item is due, also in a shut queue, and takes it out. Priorities are times (pq_options); by default those of pq_now.
   PQ_OK; PQ_NOT_DUE: *item is the first item, and stays; PQ_EMPTY; PQ_SHUT. Only PQ_OK has an entry. */
PQ_CHECKED pq_code pq_take_due(pq_member *member, pq_item *item, uint64_t until, uint64_t *number);

/* Put `count` items in, or take up to `room` items out whose priorities are at most this one. *done gets how many, and *number the number of the
   first one's entry. A refusal ends the batch there; if *done is 0, *number stays as it was. Up to 64 items go under one lock,
   and have consecutive entries. A larger batch is made in parts, and so are pushes that wait for room. A pop returns PQ_OK if it took an
   item, or if `room` is 0; PQ_NOT_DUE: items[0] is the first item, and stays; PQ_EMPTY. */
PQ_CHECKED pq_code pq_push_many(pq_member *member, const pq_item *items, size_t count, uint64_t until, size_t *done, uint64_t *number);
PQ_CHECKED pq_code pq_pop_due_many(pq_member *member, uint64_t priority, pq_item *items, size_t room, uint64_t until, size_t *done,
                                   uint64_t *number);

/* How many items the queue has, exactly, at one moment of the call. It has no entry. peak may be NULL; else *peak is the most items that the
   queue had at once up to that moment. PQ_OK; never PQ_EXHAUSTED, PQ_JOURNAL_FULL or PQ_UNARCHIVED. */
PQ_CHECKED pq_code pq_size(pq_member *member, uint64_t until, uint64_t *size, uint64_t *peak);

/* Takes the item of this ticket out, wherever it waits: the ticket is the number of the entry that put it in. No other call returns it then. Also
   of a queue that is shut. item may be NULL. PQ_OK; PQ_GONE: no item waits under this ticket, which has an entry too; PQ_NO_TICKETS. */
PQ_CHECKED pq_code pq_remove(pq_member *member, uint64_t ticket, pq_item *item, uint64_t until, uint64_t *number);

/* Moves the item with this ticket to this priority, after its equals, in one step: *number is its ticket from then on. Works on a shut or full
   queue too. PQ_OK; PQ_GONE, which has an entry too; PQ_NO_TICKETS; PQ_NO_MEMORY: the item stays as it was. */
PQ_CHECKED pq_code pq_reschedule(pq_member *member, uint64_t ticket, uint64_t priority, uint64_t until, uint64_t *number);

/* For event loops and futures. A member listens for one thing at a time: a call to listen for another ends that. It may push, pop and peek
   meanwhile. 32 may listen at once, and up to 26 more: one fewer for each thread that waits for an item or for room. If all other
   members are joined, and wait or listen, the last one may not listen, unless the queue has only one. Who may not gets PQ_ALL_JOINED.
   An item wakes one thread in pq_take. If no thread waits there, as many listeners of pq_take_or_listen are notified as there are items that
   they can take, first come first served. If no thread in pq_take was woken, one in pq_take_due is, unless one there wakes in time by itself. */

/* Takes the first item out if it is due (pq_take_due); else the member listens by `timer`, a timerfd of CLOCK_MONOTONIC that no other member has. It
   is readable once the first item is due, when an earlier one comes, on a shut, or sometimes for nothing. Then call again, while this returns PQ_OK.
   Once an item is due all such timers are readable, and one member gets it. The program neither sets nor reads the timer, and closes it after
   pq_unlisten. The call tries the lock some times, and does not sleep for it. If others still have it, or all members, it returns PQ_EMPTY, and the
   timer is readable within 0.1 ms. PQ_OK; PQ_NOT_DUE, PQ_EMPTY: wait for the timer; after PQ_NOT_DUE *item is the first item, which stays; PQ_SHUT;
   PQ_NO_TIMER; or a refusal. */
PQ_CHECKED pq_code pq_take_due_or_listen(pq_member *member, int timer, pq_item *item, uint64_t *number);

/* Takes the first item out if its priority is at most this one; else the member listens. It tries the lock some times, and does not sleep for it.
   PQ_OK; PQ_EMPTY: it listens; PQ_NOT_DUE: it listens, and *item is the first item, and stays; PQ_SHUT; or a refusal. After PQ_NOT_DUE call
   again yourself once *item is within the bound: nothing notifies of that. While the member listens, notify(context) is called at most once, after a
   push, move or shut, or for nothing. Any thread that calls the queue may call it. If others still have the lock, or all members, this call itself
   calls notify, and returns PQ_EMPTY although items may be there. After notify call again. notify must not wait or call this library. If a new
   first item precedes the one that listeners saw, one is notified, even if the item is above each bound. So all pass the current time, or none. */
PQ_CHECKED pq_code pq_take_or_listen(pq_member *member, uint64_t priority, pq_item *item, uint64_t *number,
                                     void (*notify)(void *context), void *context);

/* Puts an item in, if there is room; else the member listens for room as by pq_take_or_listen. After notify call again, or pq_unlisten: others
   that listen for room may rely on that. If others still have the lock, or all members, this call notifies, and returns PQ_FULL although there
   may be room. PQ_OK; PQ_FULL: it listens; PQ_SHUT, PQ_NO_MEMORY; or a refusal. */
PQ_CHECKED pq_code pq_push_or_listen(pq_member *member, pq_item item, uint64_t *number, void (*notify)(void *context), void *context);

/* Ends the listening: notify neither runs nor is called again. A take ends it too, and so does a call to listen that is refused.
   1: the member listened, and was not notified. */
int pq_unlisten(pq_member *member);

/* A notify that writes to an eventfd. context is its number: pq_notify_fd, (void *)(intptr_t)fd. Before the event loop first waits, and
   after each read of the readable descriptor, take until no item is left. */
void pq_notify_fd(void *context);

/* Journals: of a closed queue, copied from an open one, or read back from text. Many threads may read one. */

enum pq_request { PQ_PUSH = 0, PQ_POP = 1, PQ_PEEK = 2, PQ_REMOVE = 3, PQ_RESCHEDULE = 4, PQ_SHUTS = 5 };

/* An entry. PQ_PEEK is only in text of earlier versions. PQ_SHUTS shut the queue: no push follows, and its reply is PQ_EMPTY. */
typedef struct pq_entry {
    uint64_t number;  /* from 1 */
    uint64_t serial;  /* its place's count of requests so far, this one and refused ones included */
    uint32_t place;   /* of the member */
    uint32_t request; /* of enum pq_request */
    uint32_t reply;   /* PQ_OK or PQ_EMPTY */
    uint32_t unused;
    pq_item item;      /* pushed or found, as it was then */
    uint64_t ticket;   /* of PQ_REMOVE and PQ_RESCHEDULE; else 0 */
    uint64_t priority; /* of PQ_RESCHEDULE the one that the item gets; else 0 */
} pq_entry;

/* Copies the entries after the first `archived`, and counts those first ones as archived from now on. PQ_OK; PQ_BAD_OPTION: the journal has fewer
   entries than that; PQ_FORGOTTEN, PQ_NO_MEMORY, PQ_TIMED_OUT, PQ_NO_MEMBER, PQ_CLOSED, PQ_FORKED: *journal is NULL. After PQ_NO_MEMORY those
   first entries count as archived for requests (PQ_UNARCHIVED), but not for pq_wait_archived. */
PQ_CHECKED pq_code pq_archive(pq_member *member, uint64_t archived, uint64_t until, pq_journal **journal);

/* Waits until a pq_archive of the queue has counted the entry of this number as archived. An archiver passes `archived` on once these entries
   are on disk. What it did before that happens before what a thread does after PQ_OK.
   PQ_OK; PQ_TIMED_OUT, PQ_FORKED; PQ_CLOSED: the queue is closed or freed, and the entry not archived. */
PQ_CHECKED pq_code pq_wait_archived(pq_queue *queue, uint64_t number, uint64_t until);

/* Returns how many entries the journal has. before may be NULL; else *before is how many came before them. */
size_t pq_count(const pq_journal *journal, uint64_t *before);

/* Reads the entry of this index, from 0. PQ_OK; PQ_NO_ENTRY. */
PQ_CHECKED pq_code pq_read(const pq_journal *journal, size_t index, pq_entry *entry);

/* Writes an entry as a line, and a zero: number, place, serial, request, reply and their CRC-32C, as `7 3 2 push 5 1 pushed 4ebb24e7`. Others have
   `pop empty`, `remove 7 got 5 1`; a peek `least least 5 1`; a reschedule `move 7 9 got 5 1`, with ticket and priority; a shut `shut` alone.
   Returns the length. */
#define PQ_TEXT_ROOM 160
size_t pq_text(const pq_entry *entry, char text[PQ_TEXT_ROOM]);

/* Writes all entries as text to a file descriptor. PQ_OK; PQ_NOT_WRITTEN: a part may be written. */
PQ_CHECKED pq_code pq_write(const pq_journal *journal, int file);

/* Reads a journal back from a file descriptor, to the end of the file. The text is what pq_write writes, of a journal from entry 1 on. Each line
   is checked: its checksum, that its number is the next one, and that its reply follows from the entries before. A text of version 0.7 has no
   checksums. The journal is as that of a closed queue, and keeps the last 65536 entries. line and bytes may be NULL. Else *line is how many
   lines are read, and *bytes the length of those before a torn or refused one. PQ_OK; PQ_TORN: the last line has no line feed, and is left out.
   *journal is NULL after PQ_NOT_LAWFUL (line *line is refused), PQ_NOT_READ, PQ_NO_MEMORY and PQ_PROCESSOR. */
PQ_CHECKED pq_code pq_journal_read(int file, pq_journal **journal, uint64_t *line, uint64_t *bytes);

/* Takes the first item out that is left in a closed queue. PQ_OK; PQ_EMPTY. */
PQ_CHECKED pq_code pq_take_left(pq_journal *journal, pq_item *item);

/* Frees the journal, which may be NULL. */
void pq_journal_free(pq_journal *journal);
#pragma GCC visibility pop
#ifdef __cplusplus
}
#endif
#endif
