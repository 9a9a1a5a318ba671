/* Random schedules on the running queue. `queue_stress SEED ROUNDS [FILE]` plays so many rounds, of up to 64 threads, and looks at the
   journal of each: whether it is one that a plain sorted list could have, whether each answer stands there at its number, whether the items
   that are left are those of the list, and whether what a member archived between its calls is a beginning of it. Every fourth round is
   one of threads that wait for items. It prints `rounds N, calls M, mismatches 0`, or the first round in which something did not match.
   First of all it finds out whether the audit finds faults at all.
   The journal of a round that did not match is written to FILE, where one is named, as that of the last round is otherwise, or to
   queue_stress.journal. */
#include "stress.h"

#include <inttypes.h>

keeper kept = { "queue_stress.journal", 0, 0, 0 };

/* Reads a number below 2^32. */
static int read_number(const char *word, uint64_t *number) {
    char *end = NULL;
    *number = strtoull(word, &end, 10);
    return end != word && *end == '\0' && *word != '-' && *number <= UINT32_MAX;
}

int main(int count, char **words) {
    uint64_t seed = 0;
    uint64_t rounds = 0;
    uint64_t calls = 0;
    const char *wrong = NULL;
    if (count < 3 || count > 4 || !read_number(words[1], &seed) || !read_number(words[2], &rounds)) {
        fputs("usage: queue_stress SEED ROUNDS [FILE]\n", stderr);
        return 2;
    }
    kept.is_named = count == 4;
    kept.path = count == 4 ? words[3] : kept.path;
    wrong = finds_faults() ? NULL : "the audit overlooks a fault";
    for (uint64_t round = 0; round < rounds && wrong == NULL; round++) {
        kept.is_last = round + 1 == rounds;
        wrong = (round % 4 == 3 ? plays_waits : plays_calls)(seed, (uint32_t)round, &calls);
        if (wrong != NULL) {
            printf("seed %" PRIu64 ", round %" PRIu64 ": ", seed, round);
        }
    }
    if (wrong != NULL) {
        printf("%s\n", wrong);
        if (kept.is_kept) {
            printf("its journal is in %s\n", kept.path);
        }
        return 1;
    }
    if (kept.is_named && !kept.is_kept) {
        printf("no journal was written to %s\n", kept.path);
        return 1;
    }
    printf("rounds %" PRIu64 ", calls %" PRIu64 ", mismatches 0\n", rounds, calls);
    return 0;
}
