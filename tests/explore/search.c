/*
 * Which schedules are played: all with 0, then 1, 2 and 3 preemptions, depth first over the choices of the last one; then random ones, by
 * priorities that change at a few points (PCT, Burckhardt et al. 2010).
 *
 * Where a thread blocks, each that can go on is tried, at no cost. Before a step each other that can go on, or that sleeps until the next time,
 * costs a preemption. One is tried where a later step of its own may change places with that step, and each where that one can't go on there
 * (races.c). It is tried too in place of the thread of that step, where a preemption let that go on. A schedule that preempts a thread, and
 * resumes it before a step that depends on its next one, is as one that preempts it a step later: no more choices are made in it. This pays: with
 * up to 2 preemptions it plays 5,988 schedules in place of 39,198 (own), with all 2,323 orders of steps that depend on each other.
 *
 * usage: explore [-b PREEMPTIONS] [-n RANDOM SCHEDULES] [-s SEED] [-t SECONDS] [-r SCHEDULE] [-o | -a] NAME SCENARIO
 *
 * With -o it counts the orders of steps that depend on each other; with -a it counts them over all schedules, and leaves none out.
 */
#include "explore.h"

#include <limits.h>
#include <stdio.h>
#include <stdlib.h>
#include <string.h>
#include <time.h>
#include <unistd.h>

enum { MOST_CHOICES = 100000, MOST_CHANGES = 6 };

int is_random, is_redundant;
static int is_whole; /* each choice is tried */
static int bound, preempted;
/* A choice at this time: the alternatives as bits, and which threads they are. */
static struct {
    int chosen, of;
    int costs, ready; /* another than the first is a preemption; so many can go on, and the others sleep until the next time */
    uint64_t now;
    unsigned wanted, tried;
    signed char threads[MOST_FIBERS];
} choices[MOST_CHOICES];
static int choice_count, choice_known;
static int block_began; /* the preemption by which the thread went on that makes steps now; -1: by none */
place here;
static uint64_t seed, random_state, points, most_points, change_at[MOST_CHANGES];
static int lowest_priority;
/* Of a thread that was preempted: its next step, until another step depends on it. */
static struct {
    int is_set;
    const void *at;
    enum access access;
} waits_with[MOST_FIBERS];

uint64_t next_random(void) {
    uint64_t it = random_state += 0x9e3779b97f4a7c15u;
    it = (it ^ it >> 30) * 0xbf58476d1ce4e5b9u;
    it = (it ^ it >> 27) * 0x94d049bb133111ebu;
    return it ^ it >> 31;
}

void print_replay(void) {
    if (is_random) {
        printf("  replay: --scenario %s --replay %s/%llu\n", played.name, SUM, (unsigned long long)seed);
        return;
    }
    printf("  replay: --scenario %s --replay %s/b%d/", played.name, SUM, bound);
    for (int i = 0; i < choice_count; i++) {
        if (choices[i].chosen > 0) {
            printf("%d:%d,", i, choices[i].chosen);
        }
    }
    printf("\n");
}

/* Those that sleep until the next time are tried by this choice, or where it costs nothing, and so has none of them, by the last that does. */
static void want_time_to_pass(int choice) {
    while (choice > 0 && !choices[choice].costs) {
        choice--;
    }
    choices[choice].wanted |= UINT_MAX << choices[choice].ready;
}

/* This thread is tried by this choice, if any, and where it could not go on each other is. Its step may be later only as time has passed. */
static void want_at(int choice, int thread) {
    int i = 1;
    if (choice < 0) {
        return;
    }
    while (i < choices[choice].of && choices[choice].threads[i] != thread) {
        i++;
    }
    choices[choice].wanted |= i < choices[choice].of ? 1u << i : UINT_MAX;
    if (i == choices[choice].of || now > choices[choice].now) {
        want_time_to_pass(choice);
    }
}

/* A step of this thread races with that at this place: it is tried before that, and in place of the thread that made that, as this costs no more. */
void want(place before, int thread) {
    want_at(before.choice, thread);
    want_at(before.began, thread);
}

/* One of so many, the first by itself; *index is where that is recorded, or -1. Each is tried, or those that are wanted. */
static int choose(int count, int costs, int is_each_tried, int *index) {
    int i = choice_count, chosen = 0;
    *index = -1;
    if (count < 2 || is_redundant || (costs && preempted >= bound)) {
        return 0;
    }
    if (i == MOST_CHOICES) {
        fail("an execution has more than %d choices", MOST_CHOICES);
    }
    if (i < choice_known) {
        chosen = choices[i].chosen < count ? choices[i].chosen : 0;
    } else {
        choices[i].wanted = is_each_tried || is_whole ? UINT_MAX : 0;
        choices[i].tried = 0;
    }
    choices[i].chosen = chosen;
    choices[i].tried |= 1u << chosen;
    choices[i].of = count;
    choice_count++;
    preempted += costs && chosen > 0;
    choices[i].now = now;
    choices[i].costs = costs;
    choices[i].ready = count;
    *index = i;
    return chosen;
}

int choose_costly(void) {
    int index;
    return is_random ? next_random() % 64 == 0 : choose(2, 1, 1, &index);
}

static fiber *first_by_priority(void) {
    fiber *best = NULL;
    for (int i = 0; i < fiber_count; i++) {
        if (is_ready(&fibers[i]) && (best == NULL || fibers[i].priority > best->priority)) {
            best = &fibers[i];
        }
    }
    return best;
}

static fiber *choose_at_random(fiber *mine) {
    for (int i = 0; i < MOST_CHANGES && mine != NULL; i++) {
        if (points != change_at[i]) {
            continue;
        }
        if (next_random() % 6 == 0 && next_time() != PQ_FOREVER) {
            pass_time(next_time());
        } else {
            mine->priority = --lowest_priority;
        }
    }
    return first_by_priority();
}

/* Who else may go on: those that can, and where one is preempted those that sleep until the next time. */
static int others(const fiber *mine, fiber **found, int *ready) {
    uint64_t next = mine != NULL ? next_time() : PQ_FOREVER;
    int count = 0;
    for (int i = 0; i < fiber_count; i++) {
        if (&fibers[i] != mine && is_ready(&fibers[i])) {
            found[count++] = &fibers[i];
        }
    }
    *ready = count;
    for (int i = 0; i < fiber_count && next != PQ_FOREVER; i++) {
        const fiber *it = &fibers[i];
        if (it != mine && it->state != ENDED && !is_ready(it) && it->state != ON_MUTEX && it->until == next) {
            found[count++] = &fibers[i];
        }
    }
    return count;
}

/* Who goes on before the step of this fiber, or where it is NULL, as one has blocked: NULL where nobody can. */
fiber *choose_fiber(fiber *mine, const void *at, enum access access) {
    fiber *found[MOST_FIBERS + 1];
    int ready, count, chosen, choice;
    here.choice = -1;
    here.began = block_began;
    points += mine != NULL;
    if (is_random) {
        return choose_at_random(mine);
    }
    if (mine != NULL && (is_redundant || preempted >= bound)) {
        return mine;
    }
    found[0] = mine;
    count = (mine != NULL) + others(mine, found + (mine != NULL), &ready);
    if (count == 0) {
        return NULL;
    }
    chosen = choose(count, mine != NULL, mine == NULL, &choice);
    for (int i = 0; choice >= 0 && i < count; i++) {
        choices[choice].threads[i] = found[i] != NULL ? (signed char)index_of(found[i]) : -1;
    }
    if (choice >= 0) {
        choices[choice].ready = ready + (mine != NULL);
        choices[choice].now = now;
    }
    here.choice = choice;
    block_began = mine == NULL ? -1 : chosen > 0 ? choice : block_began;
    if (mine != NULL && chosen > 0) {
        int i = index_of(mine);
        waits_with[i].is_set = 1;
        waits_with[i].at = at;
        waits_with[i].access = access;
        if (chosen > ready) {
            pass_time(next_time());
        }
    }
    return found[chosen];
}

/* A fiber goes on that was preempted, or had blocked. */
void search_resumes(int which) {
    here.choice = -1;
    here.began = block_began;
    is_redundant |= waits_with[which].is_set && !is_whole;
    waits_with[which].is_set = 0;
}

/* A step was made. */
void search_steps(int which, const void *at, enum access access) {
    for (int i = 0; i < fiber_count; i++) {
        if (i != which && waits_with[i].is_set && races_depend(waits_with[i].at, waits_with[i].access, at, access)) {
            waits_with[i].is_set = 0;
        }
    }
}

/* Time passes, which each next step may depend on. */
void search_passes_time(void) {
    memset(waits_with, 0, sizeof waits_with);
}

static void begin_random(void) {
    random_state = seed * 0x2545f4914f6cdd1du + 1;
    has_late_stores = (int)(seed % 2);
    lowest_priority = -1;
    for (int i = 0; i < MOST_CHANGES; i++) {
        /* (with fewer changes in most executions) */
        change_at[i] = (uint64_t)i <= seed % MOST_CHANGES ? 1 + next_random() % most_points : 0;
    }
}

static void play(void) {
    choice_count = preempted = is_redundant = has_late_stores = 0;
    block_began = -1;
    points = 0;
    memset(waits_with, 0, sizeof waits_with);
    if (is_random) {
        begin_random();
    }
    execute();
}

/* Random schedules from now on. Among how many points their changes lie is that of the first schedule, so a seed alone says which one it is. */
static void begin_random_ones(void) {
    const uint64_t fewest = 20;
    bound = 0;
    choice_known = 0;
    is_random = 0;
    play();
    most_points = points > fewest ? points : fewest;
    is_random = 1;
}

/* Sets the next schedule: 0 where there is none. */
static int next_schedule(void) {
    while (choice_count > 0) {
        const int last = choice_count - 1;
        const unsigned left = choices[last].wanted & ~choices[last].tried & ((1u << choices[last].of) - 1);
        if (left != 0) {
            choices[last].chosen = __builtin_ctz(left);
            choice_known = choice_count;
            return 1;
        }
        choice_count--;
    }
    return 0;
}

static double seconds(void) {
    struct timespec it;
    clock_gettime(CLOCK_PROCESS_CPUTIME_ID, &it);
    return (double)it.tv_sec + (double)it.tv_nsec / 1e9;
}

/* Plays a schedule as it was printed. */
static int replay(const char *text) {
    const size_t length = strlen(SUM);
    if (strncmp(text, SUM, length) != 0 || text[length] != '/') {
        printf("FAILED %s: that schedule is of other sources than these, %s\n", played.name, SUM);
        return 1;
    }
    text += length + 1;
    if (*text != 'b') {
        begin_random_ones();
        seed = strtoull(text, NULL, 10);
    } else {
        bound = atoi(text + 1);
        for (const char *at = strchr(text, '/'); at != NULL && at[1] != 0; at = strchr(at + 1, ',')) {
            int place = atoi(at + 1);
            choices[place].chosen = atoi(strchr(at, ':') + 1);
            choice_known = place + 1;
        }
    }
    play();
    printf("%s: that schedule passes\n", played.name);
    return 0;
}

/* All schedules with so many preemptions: whether they were played in time. */
static int explore_bound(int preemptions, double end, long *count, long *redundant) {
    int more = 1;
    bound = preemptions;
    choice_known = 0;
    while (more && seconds() < end) {
        play();
        races_end();
        ++*count;
        *redundant += is_redundant;
        more = next_schedule();
    }
    return !more;
}

static void explore(int most, long random, double most_seconds) {
    double begun = seconds();
    long each = 0, redundant = 0, tried = 0;
    int whole = 0;
    while (whole <= most && explore_bound(whole, begun + most_seconds * (random > 0 ? 0.7 : 1), &each, &redundant)) {
        whole++;
    }
    begin_random_ones();
    for (; tried < random && seconds() - begun < most_seconds; tried++, seed++) {
        play();
    }
    printf("%s: all schedules with up to %d preemptions, %ld, of which %ld were cut; %ld at random; %.1f s", played.name, whole - 1, each,
           redundant, tried, seconds() - begun);
    if (counts_orders) {
        printf("; %ld orders", order_count);
    }
    printf("\n");
}

int main(int count, char **words) {
    int preemptions = 3, option;
    long random = 1000000000;
    double most = 2;
    const char *replayed = NULL;
    seed = 1;
    while ((option = getopt(count, words, "b:n:s:t:r:oa")) != -1) {
        switch (option) {
        case 'b': preemptions = atoi(optarg); break;
        case 'n': random = atol(optarg); break;
        case 's': seed = strtoull(optarg, NULL, 10); break;
        case 't': most = atof(optarg); break;
        case 'r': replayed = optarg; break;
        case 'o': counts_orders = 1; break;
        case 'a': counts_orders = is_whole = 1; break;
        default: return 2;
        }
    }
    if (optind + 2 != count) {
        return 2;
    }
    scenario_read(words[optind], words[optind + 1]);
    if (replayed != NULL) {
        return replay(replayed);
    }
    explore(preemptions, random, most);
    return 0;
}
