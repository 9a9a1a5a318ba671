"""A model of threads that wait for what is due in Rattle, where each watches the clock by itself, of which tests/tools/wakes tries every schedule:
does a thread sleep beside an item that is due?

Written by hand, after due.rt of crates/flat_queue.
"""
from collections import namedtuple

DESIGN = "as it is"


def put(items, index, one):
    return items[:index] + (one,) + items[index + 1:]


# Takers of what is due, the items' times that are there, those that are still pushed or, of two times, moved from one to the other, those
# announced, the events, who is still to be woken, and the time.
Due = namedtuple("Due", "takers items pushes waiters events wakes now")
NOW = Due._fields.index("now")
# `until` is when one wakes by itself, 0 where it doesn't.
Sleeper = namedtuple("Sleeper", "at seen found until slept", defaults=(0, 0, 0, False))
# Each taker takes one item, and the first goes at a time of its own where it has taken none; the items, by when they are due.
DUE_CASES = {
    "two takers, two items": (2, (1, 2), 0),
    "two takers, two items due at once": (2, (1, 1), 0),
    "two takers, one of which is late": (2, (2,), 1),
    "three takers, an item": (3, (1,), 0),
    "two takers, an item that is moved to an earlier time": (2, (2, (2, 1)), 0),
}
DUE_FAULTS = [
    "one that slept and takes an item wakes nobody",
    "one that is late wakes nobody",
    "a move wakes nobody",
]
TAKES, GOES, MOVES = DUE_FAULTS
# When the first goes, and the fault.
Rule = namedtuple("Rule", "deadline fault")
LAST = 2


def due_woken(state):
    """Returns the state with one more to be woken, where anybody is announced."""
    return state._replace(events=state.events + 1, wakes=state.wakes + 1) if state.waiters else state


def due_steps(state, rule):
    """Yields each next state."""
    if state.now < LAST:
        yield state._replace(now=state.now + 1)
    for j, one in enumerate(state.pushes):
        *old, due = one if isinstance(one, tuple) else (one,)
        if not old or old[0] in state.items:
            items = list(state.items)
            for it in old:
                items.remove(it)
            changed = state._replace(pushes=state.pushes[:j] + state.pushes[j + 1:], items=tuple(sorted(items + [due])))
            yield changed if old and rule.fault == MOVES else due_woken(changed)
    if state.wakes:
        asleep = [i for i, it in enumerate(state.takers) if it.at == "asleep"]
        for i in asleep:
            yield state._replace(takers=put(state.takers, i, state.takers[i]._replace(at="awake")), wakes=state.wakes - 1)
        if not asleep:
            yield state._replace(wakes=0)
    for i, it in enumerate(state.takers):
        yield from due_taker_steps(state, i, it, rule if i == 0 else rule._replace(deadline=0))


def due_taker_steps(state, i, it, rule):
    """Yields each state to which a step of this taker of what is due leads."""
    deadline, fault = rule
    moved = lambda taker, **more: state._replace(takers=put(state.takers, i, taker), **more)
    is_late = 0 < deadline <= state.now
    if it.at == "announce":
        yield moved(it._replace(at="look", seen=state.events), waiters=state.waiters + 1)
    elif it.at == "look":
        if state.items and state.items[0] <= state.now:
            ended = moved(Sleeper("done"), items=state.items[1:], waiters=state.waiters - 1)
            yield due_woken(ended) if it.slept and fault != TAKES else ended
        elif is_late:
            ended = moved(Sleeper("done"), waiters=state.waiters - 1)
            yield due_woken(ended) if state.items and fault != GOES else ended
        else:
            yield moved(it._replace(at="sleep", found=state.items[0] if state.items else 0))
    elif it.at == "sleep":
        times = [time for time in (it.found, deadline) if time]
        yield moved(it._replace(at="falls asleep", until=min(times) if times else 0, slept=True))
    elif it.at == "falls asleep":
        yield moved(it._replace(at="asleep" if state.events == it.seen else "awake"))
    elif it.at == "asleep" and it.until and it.until <= state.now:
        yield moved(it._replace(at="awake"))
    elif it.at == "awake":
        yield moved(Sleeper("announce", slept=True), waiters=state.waiters - 1)


def due_waits(state):
    """Whether somebody sleeps beside an item that is due."""
    return bool(state.items) and state.items[0] <= state.now and any(it.at == "asleep" for it in state.takers)


def is_lost(first, nexts, waits_on):
    """Returns whether some schedule comes to where an item is there for somebody who waits, and nobody is to move but the clock; and
    how many states there are."""
    known, left = {first}, [first]
    while left:
        state = left.pop()
        found = set(nexts(state))
        if waits_on(state) and not any(it[:NOW] != state[:NOW] for it in found):
            return True, len(known)
        new = found - known
        known |= new
        left += new
    return False, len(known)


def due_lost(case, fault):
    takers, items, deadline = case
    first = Due((Sleeper("announce"),) * takers, (), items, 0, 0, 0, 0)
    return is_lost(first, lambda state: due_steps(state, Rule(deadline, fault)), due_waits)


def first_lost(cases, looks):
    """Returns the first of these cases in which something is lost, or None where nothing is in any; and how many states were looked at."""
    count = 0
    for name, case in cases.items():
        is_so, states = looks(case)
        count += states
        if is_so:
            return name, count
    return None, count


def tried():
    """Yields of each design, the right one first, its name, the first case in which an item is lost, how many states were looked at,
    and whether that is as it should be."""
    for fault in [DESIGN, *DUE_FAULTS]:
        case, count = first_lost(DUE_CASES, lambda case: due_lost(case, fault))
        yield f"due, {fault}", case, count, bool(case) == (fault != DESIGN)
