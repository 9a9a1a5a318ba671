/*
 * A scenario is a line of text: the queue, and what each of a few threads does.
 *
 *     tickets bound=1 item=3 | push 5 1ms | take, size
 *
 * Of the queue: members=N (joined ones, one a thread where it is left out), own=N (threads use their own members, of so many), tickets, bound=N,
 * entries=N (of its journal, which fills, with 48 where it is left out), forgets or refuses (older entries, of 16), item=PRIORITY (it is there, and
 * `remove` and `move` mean the first), numbers=N (so many numbers of listeners, and of threads beside those of each kind), used=N (so many entries are there too), held (the lock is held around each proved call), early (and a thread
 * finds its answer before the one that answered it counts the wakes for that), unobserved (the scenario ends the queue), no-barriers, no-keys (the
 * system refuses them), fences; cpp or rust (that wrapper opens it, its words come before those here, and calls in C are by threads' own members).
 * The tables of requests.c, listeners.c and members.c have the words of threads. A time is in us or ms from the beginning. A deadline may be
 * `now`; one that is left out is for ever.
 */
#include "explore.h"

#include <stdlib.h>
#include <string.h>

enum { MOST_TEXT = 200 };

scenario played;
uint64_t numbers_at_first;

static uint64_t time_or_number(const char *text) {
    char *unit;
    uint64_t number = strtoull(text, &unit, 10);
    if (strcmp(text, "now") == 0) {
        return PQ_NOW;
    }
    if (strcmp(unit, "ms") == 0 || strcmp(unit, "us") == 0) {
        return BEGIN + number * (*unit == 'm' ? 1000000 : 1000);
    }
    if (unit == text || *unit != 0) {
        fail("'%s' is no number", text);
    }
    return number;
}

static const wrapper *wrapper_of(const char *opening) {
    if (strstr(opening, "cpp") != NULL) {
        return &cpp_wrapper;
    }
    if (strstr(opening, "rust") != NULL && &rust_wrapper == NULL) {
        fail("the wrapper in Rust is not linked");
    }
    return strstr(opening, "rust") != NULL ? &rust_wrapper : NULL;
}

void scenario_read(const char *name, const char *text) {
    char *left = strdup(text), *part = strsep(&left, "|");
    played.name = name;
    played.opening = part;
    played.holds = strstr(part, "held") != NULL;
    played.answers_early = strstr(part, "early") != NULL;
    played.wraps = wrapper_of(part);
    while ((part = strsep(&left, "|")) != NULL) {
        if (played.count == MOST_FIBERS) {
            fail("a scenario has at most %d threads", MOST_FIBERS);
        }
        played.threads[played.count++] = part + strspn(part, " ");
    }
}

typedef struct opening {
    pq_options options;
    uint32_t own;
    uint64_t items[4], used;
    int item_count, is_unobserved;
} opening;

static void read_number(opening *it, const char *name, uint64_t number) {
    if (strcmp(name, "members") == 0) {
        it->options.members = (uint32_t)number;
    } else if (strcmp(name, "own") == 0) {
        it->own = (uint32_t)number;
    } else if (strcmp(name, "entries") == 0) {
        it->options.entries = (uint32_t)number;
    } else if (strcmp(name, "numbers") == 0) {
        const uint64_t free = ((uint64_t)1 << number) - 1;
        numbers_at_first = (UINT64_MAX >> KINDS) & ~(free | free << 32);
    } else if (strcmp(name, "used") == 0) {
        it->used = number;
    } else if (strcmp(name, "bound") == 0) {
        it->options.most_items = number;
    } else if (strcmp(name, "item") == 0 && it->item_count < 4) {
        it->items[it->item_count++] = number;
    } else {
        fail("no queue has '%s='", name);
    }
}

/* Words that stand elsewhere too, and were read there. */
static int is_read(const char *name) {
    return strcmp(name, "held") == 0 || strcmp(name, "early") == 0 || (played.wraps != NULL && strcmp(name, played.wraps->name) == 0);
}

static void read_option(opening *it, char *text) {
    const char *name = strsep(&text, "=");
    if (text != NULL) {
        read_number(it, name, time_or_number(text));
    } else if (strcmp(name, "tickets") == 0) {
        it->options.tickets = 1;
    } else if (strcmp(name, "forgets") == 0) {
        it->options.keeping = PQ_FORGETS;
    } else if (strcmp(name, "refuses") == 0) {
        it->options.keeping = PQ_REFUSES;
        waits_for_archive = 1;
    } else if (strcmp(name, "no-barriers") == 0) {
        refuses_barriers = 1;
    } else if (strcmp(name, "no-keys") == 0) {
        refuses_keys = 1;
    } else if (strcmp(name, "unobserved") == 0) {
        it->is_unobserved = 1;
    } else if (strcmp(name, "fences") == 0) {
        flatpq_special = FENCES;
    } else if (!is_read(name)) {
        fail("no queue is '%s'", name);
    }
}

/* Copies a text, of which strsep takes parts. */
static char *copied(char *to, const char *text) {
    if (strlen(text) >= MOST_TEXT) {
        fail("a text is longer than %d", MOST_TEXT);
    }
    return strcpy(to, text);
}

static opening read_opening(void) {
    const uint32_t fills = 48, fewest = 16;
    char text[MOST_TEXT], *part, *left = copied(text, played.opening);
    opening it = { .options = { .keeping = PQ_FILLS } };
    while ((part = strsep(&left, " ")) != NULL) {
        if (*part != 0) {
            read_option(&it, part);
        }
    }
    if (it.options.entries == 0) {
        it.options.entries = it.options.keeping == PQ_FILLS ? fills : fewest;
    }
    return it;
}

/* Opens the queue, joins members, and puts items and other entries in. */
void scenario_begin(void) {
    opening it;
    uint32_t joined;
    (void)flatpq_may_open(); /* it sets these two at first */
    flatpq_special = 0;
    flatpq_processors = 4;
    it = read_opening();
    joined = it.own > 0 ? 0 : it.options.members != 0 ? it.options.members : (uint32_t)played.count;
    it.options.members = it.own + joined;
    check_begin(it.options, !it.is_unobserved);
    use_members(joined == 0 ? it.item_count > 0 || it.used > 0 : (int)joined);
    use_entries(it.used);
    for (int i = 0; i < it.item_count; i++) {
        put(it.items[i]);
    }
    for (int i = 0; i < MOST_FIBERS && (joined == 0 || played.wraps != NULL); i++) {
        give_back(i);
    }
}

static void do_word(int which, char **words, int count) {
    const word *const tables[] = { played.wraps != NULL ? played.wraps->words : request_words, request_words, listener_words, member_words };
    uint64_t numbers[] = { PQ_FOREVER, PQ_FOREVER, PQ_FOREVER };
    for (int i = 1; i < count; i++) {
        numbers[i - 1] = time_or_number(words[i]);
    }
    for (int i = 0; i < 4; i++) {
        for (const word *it = tables[i]; it->text != NULL; it++) {
            if (strcmp(it->text, words[0]) == 0) {
                it->does(which, numbers);
                return;
            }
        }
    }
    fail("no thread does '%s'", words[0]);
}

/* Does what a thread does. At last it gives back a member that was joined for it. */
void scenario_run(int which) {
    enum { MOST_WORDS = 4 };
    char text[MOST_TEXT], *part, *left = copied(text, played.threads[which]);
    while ((part = strsep(&left, ",")) != NULL) {
        char *words[MOST_WORDS], *it;
        int count = 0;
        while ((it = strsep(&part, " ")) != NULL && count < MOST_WORDS) {
            words[count] = it;
            count += *it != 0;
        }
        if (count > 0) {
            do_word(which, words, count);
        }
    }
    if (played.wraps != NULL) {
        played.wraps->thread_ends(which);
    }
    give_back(which);
}
