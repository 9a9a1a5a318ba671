/* pq_take_or_listen: a member that listens is notified once, also after more events than 16 bits count; each refusal; and pq_notify_fd writes to an
   eventfd. Who is notified of what tests/explore tries. */
#include "../check.h"

#include <sys/eventfd.h>

/* What is notified, and how often. */
typedef struct loop {
    pq_member *member;
    int notified;
} loop;

static void notify(void *context) {
    ((loop *)context)->notified++;
}

/* How often it was notified since this was last asked. */
static int notified(loop *it) {
    int count = it->notified;
    it->notified = 0;
    return count;
}

static pq_code take_up_to(loop *it, uint64_t priority, pq_item *item) {
    return pq_take_or_listen(it->member, priority, item, NULL, notify, it);
}

static pq_code take(loop *it) {
    pq_item item;
    return take_up_to(it, UINT64_MAX, &item);
}

static loop loop_of(pq_queue *queue) {
    loop it = { joined(queue), 0 };
    return it;
}

static void push(pq_member *member, uint64_t priority) {
    CHECK(pq_push(member, item_of(priority, 4), PQ_FOREVER, NULL) == PQ_OK);
}

/* They come while it listens, and was notified of the first. */
static void it_is_notified_after_many(void) {
    pq_queue *queue = opened(2);
    loop it = loop_of(queue);
    pq_member *other = joined(queue);
    pq_item item;
    CHECK(take(&it) == PQ_EMPTY);
    for (uint32_t i = requests(70000); i > 0; i--) {
        push(other, 1);
        CHECK(pq_pop(other, &item, PQ_FOREVER, NULL) == PQ_OK);
    }
    CHECK(notified(&it) == 1 && take(&it) == PQ_EMPTY && notified(&it) == 0);
    push(other, 1);
    CHECK(notified(&it) == 1);
    pq_give_back(it.member);
    pq_give_back(other);
    close_and_free(queue);
}

static void it_is_refused(void) {
    pq_queue *queue = opened_as(2, PQ_FILLS, 1);
    loop it = { NULL, 0 };
    pq_item item = item_of(9, 9);
    CHECK(take(&it) == PQ_NO_MEMBER && pq_unlisten(NULL) == 0);
    it.member = joined(queue);
    CHECK(take(&it) == PQ_EMPTY && pq_pop(pq_own(queue), &item, PQ_FOREVER, NULL) == PQ_EMPTY && notified(&it) == 1);
    CHECK(take_up_to(&it, 9, &item) == PQ_JOURNAL_FULL && is_item(item, 9, 9) && pq_unlisten(it.member) == 0);
    pq_give_back(it.member);
    close_and_free(queue);
}

/* The count of the descriptor, which is 0 then: how often it was notified since the last read. */
static uint64_t read_from(int fd) {
    struct pollfd one = { fd, POLLIN, 0 };
    uint64_t count = 0;
    CHECK(poll(&one, 1, 0) >= 0 && (one.revents == 0 || read(fd, &count, sizeof count) == sizeof count));
    return count;
}

static void a_descriptor_is_written_to(void) {
    pq_queue *queue = opened(2);
    pq_member *member = joined(queue), *other = joined(queue);
    const int fd = eventfd(0, EFD_NONBLOCK);
    void *context = (void *)(intptr_t)fd;
    const uint64_t most = UINT64_MAX - 1;
    pq_item item;
    CHECK(fd >= 0 && pq_take_or_listen(member, 9, &item, NULL, pq_notify_fd, context) == PQ_EMPTY && read_from(fd) == 0);
    push(other, 3);
    push(other, 3);
    CHECK(read_from(fd) == 1 && pq_take_or_listen(member, 9, &item, NULL, pq_notify_fd, context) == PQ_OK);
    CHECK(pq_take_or_listen(member, 9, &item, NULL, pq_notify_fd, context) == PQ_OK);
    CHECK(pq_take_or_listen(member, 9, &item, NULL, pq_notify_fd, context) == PQ_EMPTY && write(fd, &most, sizeof most) == sizeof most);
    /* Its count is at its most, and stays. */
    push(other, 3);
    CHECK(read_from(fd) == most && pq_take_or_listen(member, 9, &item, NULL, pq_notify_fd, context) == PQ_OK && close(fd) == 0);
    pq_give_back(member);
    pq_give_back(other);
    close_and_free(queue);
}

int main(void) {
    alarm(200);
    it_is_notified_after_many();
    it_is_refused();
    a_descriptor_is_written_to();
    return 0;
}
