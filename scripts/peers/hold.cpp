// The hold model: one thread beside one that sleeps, as a mutex makes no atomic step in a program of one; a queue that grows to so
// many items; and operations each of which pops the first and pushes one later. Over the queue by its calls for C, and, not verified, a std::mutex and a ring of lines around three heaps:
// std::priority_queue, a 4-ary heap, and a binary heap with holes. `hold c-queue|std-heap|four-heap|hole-heap ITEMS OPERATIONS` prints
// `hold,KIND,ITEMS,OPERATIONS,HELD,GREW,LONGEST,audit ok`, or `audit failed` as the last field: nanoseconds of all operations, of
// all pushes while the queue grew, and of the longest of these.
#include "c_queues.hpp"
#include "heaps.hpp"
#include "load.hpp"
#include "numbers.hpp"

#include <algorithm>
#include <cstdint>
#include <mutex>
#include <string>

struct hold_load {
    std::uint64_t items, operations;
};

// By how much a push is later than the item popped before it, at most: priorities stay below 2^32 then, whatever the operations.
static std::uint64_t bound_of(const hold_load &of) {
    const std::uint64_t most = UINT64_C(1) << 30;
    return of.items >= of.operations ? most : std::max<std::uint64_t>(2, std::min(most, 2 * most * of.items / of.operations));
}

// Grows a queue: what all pushes took, and the longest of them.
template <class Queue> static void grow(const hold_load &of, Queue &shared, numbers &any, std::uint64_t (&took)[2]) {
    const std::uint64_t bound = bound_of(of);
    for (std::uint64_t i = 0; i < of.items; ++i) {
        const item it = {any.below(bound), i};
        const std::uint64_t began = nanoseconds_now();
        shared.push(0, it);
        const std::uint64_t pushed = nanoseconds_now() - began;
        took[0] += pushed;
        took[1] = std::max(took[1], pushed);
    }
}

// Whether each operation found an item, none before an earlier one.
template <class Queue> static bool hold(const hold_load &of, Queue &shared, numbers &any) {
    const std::uint64_t bound = bound_of(of);
    std::uint64_t latest = 0;
    bool in_order = true;
    for (std::uint64_t i = 0; i < of.operations; ++i) {
        item it;
        in_order = shared.pop(0, it) && it.priority >= latest && in_order;
        latest = it.priority;
        shared.push(0, {latest + any.below(bound), i});
    }
    return in_order;
}

template <class Queue> static int run(const char *kind, const hold_load &of) {
    Queue shared(1);
    std::uint64_t held = 0;
    std::uint64_t grew[2] = {0, 0};
    bool in_order = false;
    run_at_once(1, [&](std::uint32_t) {
        return [&] {
            numbers any(7);
            grow(of, shared, any, grew);
            const std::uint64_t began = nanoseconds_now();
            in_order = hold(of, shared, any);
            held = nanoseconds_now() - began;
        };
    });
    const std::uint64_t figures[] = {of.items, of.operations, held, grew[0], grew[1]};
    return print_figures("hold", kind, figures, in_order && shared.lines() == of.items + 2 * of.operations);
}

int main(int argc, char **argv) {
    hold_load of = {};
    const std::string kind = argc < 2 ? "" : argv[1];
    if (argc == 4 && read_number(argv[2], 1, 100000000, of.items) && read_number(argv[3], 1, 100000000, of.operations)) {
        if (kind == "c-queue") {
            return run<c_queue>(argv[1], of);
        }
        if (kind == "std-heap") {
            return run<locked<std::mutex, std_heap>>(argv[1], of);
        }
        if (kind == "four-heap") {
            return run<locked<std::mutex, four_heap>>(argv[1], of);
        }
        if (kind == "hole-heap") {
            return run<locked<std::mutex, hole_heap>>(argv[1], of);
        }
    }
    std::fputs("usage: hold c-queue|std-heap|four-heap|hole-heap ITEMS OPERATIONS\n", stderr);
    return 2;
}
