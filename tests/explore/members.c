/*
 * Words of scenarios: members, archives, the ends of queues, and what threads do to wait for each other.
 */
#include "explore.h"

static uint32_t told, asked;

void members_begin(void) {
    told = asked = 0;
}

/* So many threads use a member that is joined for them, and the others their own. */
void use_members(int joined) {
    for (int i = 0; i < MOST_FIBERS; i++) {
        used[i] = pq_own(queue);
        if (i < joined && i < played.count && pq_join(queue, PQ_NOW, &used[i]) != PQ_OK) {
            fail("no member");
        }
    }
}

void give_back(int which) {
    if (used[which] != pq_own(queue)) {
        pq_give_back(used[which]);
        used[which] = pq_own(queue);
    }
}

static void join(int which, const uint64_t *numbers) {
    pq_member *made;
    pq_code code;
    give_back(which);
    check_call_begins(AWAITS, numbers[0], UINT64_MAX);
    code = pq_join(queue, numbers[0], &made);
    check_call_begins(NO_CALL, PQ_FOREVER, 0);
    if (code == PQ_OK) {
        used[which] = made;
    } else if (code != PQ_CLOSED && code != PQ_ALL_JOINED) {
        fail("a join returns %s", pq_code_text(code));
    }
}

static void leave(int which, const uint64_t *numbers) {
    pq_leave(queue);
}

static void archive(int which, const uint64_t *numbers) {
    const int is_shut = queue->is_shut != 0 && !waits_for_archive;
    pq_journal *journal;
    pq_code code = pq_archive(used[which], numbers[0], PQ_FOREVER, &journal);
    if (code == PQ_OK) {
        check_archive(journal);
        pq_journal_free(journal);
        if (is_shut && !journal_has_shut()) {
            fail("an archive of a shut queue has no entry of the shut");
        }
    } else if (code != PQ_CLOSED && (code != PQ_BAD_OPTION || numbers[0] <= journal_kept())) {
        fail("an archive returns %s", pq_code_text(code));
    }
}

/* Reads what came after the last archive, and archives that: at first, and whenever others ask for it. */
static void archive_on(int which, const uint64_t *numbers) {
    while (!is_over) {
        const uint32_t seen = asked;
        for (int i = 0; i < 2; i++) {
            const uint64_t kept = journal_kept();
            archive(which, &kept);
        }
        check_call_begins(SERVES, PQ_FOREVER, 0);
        sleep_at(&asked, seen, PQ_FOREVER);
        check_call_begins(NO_CALL, PQ_FOREVER, 0);
    }
}

static pq_code await_entry(uint64_t number, uint64_t until) {
    pq_code code;
    check_call_begins(AWAITS, until, number);
    code = pq_wait_archived(queue, number, until);
    check_call_begins(NO_CALL, PQ_FOREVER, 0);
    if ((code == PQ_CLOSED && ending != FREED && queue->archived >= number) || (code == PQ_OK && queue->archived < number)
        || (code == PQ_TIMED_OUT && until != PQ_NOW && now < until)) {
        fail("a wait until an entry is archived returns %s", pq_code_text(code));
    }
    return code;
}

/* Asks the thread that archives, and waits for this entry. */
static pq_code ask_for(uint64_t number) {
    scheduler_point("ask for an archive", &asked, WRITES, __FILE__, __LINE__);
    asked++;
    wake_word(&asked);
    return await_entry(number, PQ_FOREVER);
}

void while_refused(pq_code (*does)(int which, const uint64_t *numbers), int which, const uint64_t *numbers) {
    uint64_t number = queue->archived + 1;
    while (does(which, numbers) == PQ_UNARCHIVED && ask_for(number) == PQ_OK) {
        number = queue->archived + 1;
    }
}

static void await_archived(int which, const uint64_t *numbers) {
    (void)await_entry(numbers[0], numbers[1]);
}

/*
 * Ends.
 */

static void shut(int which, const uint64_t *numbers) {
    const pq_item none = { 0, 0 };
    check_call_begins(CALLS, PQ_FOREVER, 0);
    check_call_ends(PQ_SHUTS, pq_shut(queue), none, 0);
}

/* A push that begins in a queue that is shut is refused; after one that was refused for that the queue is shut. */
static void push_unless_shut(int which, const uint64_t *numbers) {
    const pq_item item = { numbers[0], 0 };
    const int was_shut = pq_is_shut(queue);
    const pq_code code = pq_push(used[which], item, PQ_FOREVER, NULL);
    if ((was_shut && code != PQ_SHUT) || (code == PQ_SHUT && !pq_is_shut(queue))) {
        fail("a queue is shut or not, and a push returns %s", pq_code_text(code));
    }
}

static pq_code close_once(void) {
    pq_journal *journal;
    pq_code code;
    check_call_begins(NO_CALL, PQ_FOREVER, 0);
    code = pq_close(queue, &journal);
    if (code == PQ_OK) {
        ending = CLOSED;
        pq_journal_free(journal);
    }
    if (code == PQ_OK && (queue->numbers & ~queue->gone) != numbers_at_first) {
        fail("the queue is closed, and a thread waits or listens");
    }
    if (code == PQ_OK && me->is_after_shut && queue->is_shut != IS_SHUT) {
        fail("a shut returned, and a close that began after that did not make it");
    }
    return code;
}

static void close_queue(int which, const uint64_t *numbers) {
    (void)close_once();
}

static void close_at_last(int which, const uint64_t *numbers) {
    while (close_once() == PQ_MEMBERS_LEFT) {
        block(NAPS, NULL, now + 1000000);
    }
}

static void close_alone(int which, const uint64_t *numbers) {
    pq_code code = close_once();
    if (code != PQ_OK) {
        fail("a close beside no other thread returns %s", pq_code_text(code));
    }
}

/* May call the queue. */
static void left(void *context, pq_item item) {
    (void)context;
    if (pq_push(pq_own(queue), item, PQ_NOW, NULL) != PQ_CLOSED) {
        fail("a queue that is freed takes a push");
    }
}

static void free_queue(int which, const uint64_t *numbers) {
    give_back(which);
    ending = FREED;
    pq_free(queue, left, NULL);
}

/*
 * Among the threads.
 */

static void sleep_to(int which, const uint64_t *numbers) {
    if (is_to_come(numbers[0])) {
        block(SLEEPS, NULL, numbers[0]);
    }
}

/* Something is to be done after this: nothing is settled meanwhile. */
static void nap(int which, const uint64_t *numbers) {
    nap_for(numbers[0] - BEGIN);
}

static void tell(int which, const uint64_t *numbers) {
    scheduler_point("tell", &told, WRITES, __FILE__, __LINE__);
    told++;
    wake_word(&told);
}

/* Until so many have told. */
static void hear(int which, const uint64_t *numbers) {
    for (uint32_t seen = 0; seen < numbers[0]; seen++) {
        sleep_at(&told, seen, PQ_FOREVER);
    }
}

/* Until this thread sleeps in a call, or has ended. */
static void await_sleep(int which, const uint64_t *numbers) {
    const fiber *it = &fibers[numbers[0]];
    if (!is_asleep(it)) {
        block(ON_THREAD, it, PQ_FOREVER);
    }
}

static void give_member_back(int which, const uint64_t *numbers) {
    give_back(which);
}

const word member_words[] = {
    { "join", join },
    { "give-back", give_member_back },
    { "leave", leave },
    { "archive", archive },
    { "archive-on", archive_on },
    { "await-archived", await_archived },
    { "shut", shut },
    { "push-unless-shut", push_unless_shut },
    { "close", close_queue },
    { "close-at-last", close_at_last },
    { "close-alone", close_alone },
    { "free", free_queue },
    { "sleep", sleep_to },
    { "nap", nap },
    { "tell", tell },
    { "hear", hear },
    { "await-sleep", await_sleep },
    { NULL, NULL },
};
