"""Uses flatpq.py: pushes and pops, batches, tickets, deadlines; a thread waits, and is woken by a push, by the time, and by the end.

usage: python3 tests/tools/by_ctypes.py LIBRARY

LIBRARY is libflatpq.so. flatpq.py is in the same package, or in a folder of PYTHONPATH. The status is 1 where something is not as it
should be.
"""
import os
import sys
import threading
import time

if len(sys.argv) != 2:
    print(__doc__, end="")
    sys.exit(2)
os.environ["FLATPQ_LIBRARY"] = sys.argv[1]
sys.path.append(f"{os.path.dirname(os.path.abspath(sys.argv[1]))}/../share/flatpq/python")
import flatpq

SECONDS = 120


def need(found, wanted, what):
    if found != wanted:
        sys.exit(f"by_ctypes: {what}: {found} and not {wanted}")


def need_error(code, what, call, *words, **how):
    """The call is refused by this code, and says so in words."""
    try:
        found = call(*words, **how)
    except flatpq.Error as error:
        need((error.code, str(error) != ""), (code, True), what)
        return error
    sys.exit(f"by_ctypes: {what}: {found} and no error")


def pushes_and_pops(queue):
    """The first item comes out first, and of equal priorities the one that was pushed first; entries are numbered."""
    for count, (priority, value) in enumerate([(5, 1), (2**63, 2), (3, 3), (5, 2**64 - 1)], 1):
        need(queue.push(priority, value), count, "a push")
    for wanted in [(3, 3), (5, 1), (5, 2**64 - 1), (2**63, 2), None]:
        need(queue.pop(timeout=5), wanted, "a pop")
    began = time.monotonic()
    need((queue.take(timeout=0.05), queue.take(timeout=0), time.monotonic() - began >= 0.05), (None, None, True), "a take for which nothing comes")


def batches_and_tickets(queue):
    ticket = queue.push_many([(7, 1), (4, 2), (9, 3)])
    need(queue.pop_due_many(6, 10), [(4, 2)], "a batch of what is due")
    need((queue.remove(ticket), queue.remove(ticket)), ((7, 1), None), "a removal, and another")
    moved = queue.reschedule(ticket + 2, 1)
    need((moved > ticket + 2, queue.reschedule(ticket + 2, 1)), (True, None), "a move, and another")
    need((queue.pop_due_many(2**64 - 1, 10), queue.pop_due_many(2**64 - 1, 10), queue.push_many([])), ([(1, 3)], [], 0), "batches of what is left")
    need_error(59, "a removal without tickets", flatpq.Queue(members=1).remove, 1)
    need_error(5, "an opening", flatpq.Queue, members=65)
    full = flatpq.Queue(most_items=2)
    need(need_error(53, "a batch without room", full.push_many, [(1, 1), (2, 2), (3, 3)], timeout=0).done, 2, "what is in of a batch")


def is_woken(take, wakes, wanted):
    """A thread waits for an item, and what wakes it makes its call return."""
    returned = []

    def waits():
        try:
            returned.append(take())
        except flatpq.Error as error:
            returned.append(error.code)

    thread = threading.Thread(target=waits, daemon=True)
    thread.start()
    time.sleep(0.05)
    need((returned, thread.is_alive()), ([], True), "a thread that waits")
    wakes()
    thread.join(SECONDS)
    need((thread.is_alive(), returned), (False, [wanted]), "the thread that is woken")


def main():
    queue = flatpq.Queue(tickets=True)
    pushes_and_pops(queue)
    batches_and_tickets(queue)
    is_woken(queue.take, lambda: queue.push(7, 8), (7, 8))
    due = flatpq.now() + 100_000_000
    is_woken(queue.take_due, lambda: queue.push(due, 9), (due, 9))
    need(flatpq.now() >= due, True, "a take of what is due")
    is_woken(queue.take, queue.shut, 51)
    need_error(51, "a push after the end", queue.push, 1, 1)
    queue.close()
    need_error(63, "a push after the closing", queue.push, 1, 1)
    need_error(63, "another closing", queue.close)
    return 0


if __name__ == "__main__":
    sys.exit(main())
