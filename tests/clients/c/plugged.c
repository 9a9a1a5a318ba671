/* A program and a plug-in, which it loads with RTLD_LOCAL, share a queue, as both are linked to the shared library: a push by one wakes a
   thread and rings an eventfd of the other; calls of both are refused in a forked child, also where the plug-in's first call is made there;
   and a thread that waits at a shut queue gets its end when the other takes the last item out. Another plug-in, which has a copy of the library
   in it, gets no member. */
#include "plug_in.h"

#include <dlfcn.h>
#include <sys/eventfd.h>

static const plug_in *other;
static pq_queue *queue;

static void a_joining_is_refused(void) {
    pq_member *joining = NULL;
    CHECK(other->join(queue, &joining) == PQ_FORKED && joining == NULL);
}

static void all_calls_are_refused(void) {
    a_joining_is_refused();
    CHECK(other->push(queue) == PQ_FORKED && other->pop(queue) == PQ_FORKED && other->listen_to(queue, 1) == PQ_FORKED);
    CHECK(other->shut(queue) == PQ_FORKED && pq_push(pq_own(queue), item_of(1, 2), PQ_FOREVER, NULL) == PQ_FORKED);
}

static void *takes(void *unused) {
    pq_item item;
    CHECK(pq_take(pq_own(queue), &item, PQ_FOREVER, NULL) == PQ_OK && is_item(item, 5, 7));
    return unused;
}

static void *pushes_by_plug_in(void *unused) {
    CHECK(other->push(queue) == PQ_OK);
    return unused;
}

/* Threads and eventfds of the one are woken by a push of the other. */
static void each_wakes_the_other(void) {
    int fd = eventfd(0, 0);
    uint64_t count = 0;
    pq_item item;
    pthread_t thread = started(takes, NULL);
    sleep_ms(20);
    CHECK(other->push(queue) == PQ_OK);
    ended(thread);
    CHECK(pq_take_or_listen(pq_own(queue), 9, &item, NULL, pq_notify_fd, (void *)(intptr_t)fd) == PQ_EMPTY && !is_readable(fd, 0));
    ended(started(pushes_by_plug_in, NULL));
    CHECK(is_readable(fd, 5000) && read(fd, &count, sizeof count) == sizeof count && count == 1);
    CHECK(pq_take_or_listen(pq_own(queue), 9, &item, NULL, pq_notify_fd, (void *)(intptr_t)fd) == PQ_OK && is_item(item, 5, 7));
    CHECK(other->listen_to(queue, fd) == PQ_EMPTY && !is_readable(fd, 0));
    pq_member *member = joined(queue);
    CHECK(pq_push(member, item_of(1, 2), PQ_FOREVER, NULL) == PQ_OK && is_readable(fd, 5000));
    CHECK(other->listen_to(queue, fd) == PQ_OK && pq_unlisten(pq_own(queue)) == 0 && close(fd) == 0);
    pq_give_back(member);
}

static void *waits_for_what_is_due(void *unused) {
    pq_item item;
    CHECK(pq_take_due(pq_own(queue), &item, PQ_FOREVER, NULL) == PQ_SHUT);
    return unused;
}

static void the_plug_in_takes_the_last_item(void) {
    CHECK(pq_push(pq_own(queue), item_of(in_ms(60000), 1), PQ_FOREVER, NULL) == PQ_OK);
    pthread_t thread = started(waits_for_what_is_due, NULL);
    sleep_ms(20);
    CHECK(other->shut(queue) == PQ_OK);
    sleep_ms(20);
    uint64_t begun = pq_now();
    CHECK(other->pop(queue) == PQ_OK);
    ended(thread);
    CHECK(pq_now() - begun < 20000000000u);
}

static const plug_in *calls_of(const char *file) {
    void *loaded = dlopen(file, RTLD_NOW | RTLD_LOCAL);
    const plug_in *found = loaded != NULL ? (const plug_in *)dlsym(loaded, "plugged_calls") : NULL;
    CHECK(found != NULL);
    return found;
}

static void another_copy_gets_no_member(const plug_in *copy) {
    pq_member *joining = NULL;
    CHECK(copy->join(queue, &joining) == PQ_NO_MEMBER && joining == NULL && copy->push(queue) == PQ_NO_MEMBER);
    CHECK(copy->pop(queue) == PQ_NO_MEMBER && copy->listen_to(queue, 1) == PQ_NO_MEMBER);
}

int main(int count, char **words) {
    CHECK(count == 3);
    other = calls_of(words[1]);
    queue = opened(3);
    another_copy_gets_no_member(calls_of(words[2]));
    in_child(a_joining_is_refused);
    in_child(all_calls_are_refused);
    each_wakes_the_other();
    in_child(all_calls_are_refused);
    the_plug_in_takes_the_last_item();
    close_and_free(queue);
    return 0;
}
