"""flatpq from Python: a priority queue of numbers that threads share, by ctypes alone.

    queue = flatpq.Queue(tickets=True)
    ticket = queue.push(5, 1)
    item = queue.take(timeout=0.5)      # (5, 1), or None

Priorities and values are integers from 0 to 2**64 - 1. The smallest priority comes out first. A timeout is in seconds: None waits for ever,
0 never. Other threads run while a call waits; Ctrl-C does not end it. flatpq.h says what each call does. FLATPQ_LIBRARY may name the library.
"""
import ctypes
import os

FORGETS, REFUSES, FILLS = 0, 1, 2
_OK, _EMPTY, _NOT_DUE, _GONE, _FOREVER = 0, 48, 50, 58, 2**64 - 1
_POINTER, _CODE, _WORD = ctypes.c_void_p, ctypes.c_uint32, ctypes.c_uint64


class _Item(ctypes.Structure):
    _fields_ = [("priority", _WORD), ("value", _WORD)]


class _Options(ctypes.Structure):
    _fields_ = [(it, _CODE) for it in ("members", "keeping", "entries", "tickets")]
    _fields_ += [(it, _WORD) for it in ("time_zero", "time_unit", "most_items")]


def _loaded():
    """Loads the library, and declares the result and the parameters of each call."""
    library = ctypes.CDLL(os.environ.get("FLATPQ_LIBRARY", "libflatpq.so.0.9"))
    item, out, size = ctypes.POINTER(_Item), ctypes.POINTER(_WORD), ctypes.POINTER(ctypes.c_size_t)
    takes, batch = [_CODE, _POINTER, item, _WORD, out], [item, ctypes.c_size_t, _WORD, size, out]
    for name, result, *parameters in [
        ("open", _CODE, ctypes.POINTER(_Options), ctypes.POINTER(_POINTER)), ("free", None, _POINTER, _POINTER, _POINTER),
        ("own", _POINTER, _POINTER), ("shut", _CODE, _POINTER), ("close", _CODE, _POINTER, _POINTER), ("now", _WORD),
        ("push", _CODE, _POINTER, _Item, _WORD, out), ("pop", *takes), ("take", *takes), ("take_due", *takes), ("after", _WORD, _WORD),
        ("push_many", _CODE, _POINTER, *batch), ("pop_due_many", _CODE, _POINTER, _WORD, *batch), ("code_text", ctypes.c_char_p, _CODE),
        ("remove", _CODE, _POINTER, _WORD, item, _WORD, out), ("reschedule", _CODE, _POINTER, _WORD, _WORD, _WORD, out),
    ]:
        function = getattr(library, f"pq_{name}")
        function.restype, function.argtypes = result, parameters
    return library


_C = _loaded()
now = _C.pq_now  # nanoseconds: take_due takes an item once its priority is at most this


class Error(Exception):
    """A call was refused: `code` is that of flatpq.h; `done` is how many items of a batch are in."""
    def __init__(self, code, done=0):
        super().__init__(_C.pq_code_text(code).decode())
        self.code, self.done = code, done


def _check(code, *others, done=0):
    if code not in (_OK, *others):
        raise Error(code, done)
    return code == _OK


def _until(timeout):
    return _FOREVER if timeout is None else _C.pq_after(int(timeout * 1e9)) if timeout > 0 else 0


def _takes(name, says):
    def takes(self, *words, timeout=None):
        item = _Item()
        found = _check(getattr(_C, name)(self._own, *words, item, _until(timeout), None), _EMPTY, _NOT_DUE, _GONE)
        return (item.priority, item.value) if found else None
    takes.__doc__ = f"{says} Returns priority and value, or None."
    return takes


class Queue:
    """A queue, with the options of pq_options. A call that is refused raises Error."""

    def __init__(self, members=0, keeping=FORGETS, entries=0, tickets=False, time_zero=0, time_unit=0, most_items=0):
        self._queue = _POINTER()
        _check(_C.pq_open(_Options(members, keeping, entries, tickets, time_zero, time_unit, most_items), self._queue))
        self._own = _C.pq_own(self._queue)

    def __del__(self):
        _C.pq_free(self._queue, None, None)

    pop = _takes("pq_pop", "Takes the first item out.")
    take = _takes("pq_take", "Waits for an item, and takes the first one out.")
    take_due = _takes("pq_take_due", "Waits until the first item is due, and takes it out.")
    remove = _takes("pq_remove", "Takes the item of this ticket out.")

    def push(self, priority, value, timeout=None):
        """Puts an item in, and returns its ticket."""
        number = _WORD()
        _check(_C.pq_push(self._own, _Item(priority, value), _until(timeout), number))
        return number.value

    def push_many(self, items, timeout=None):
        """Puts pairs of priority and value in, and returns the ticket of the first."""
        items, done, number = [_Item(*it) for it in items], ctypes.c_size_t(), _WORD()
        _check(_C.pq_push_many(self._own, (_Item * len(items))(*items), len(items), _until(timeout), done, number), done=done.value)
        return number.value

    def pop_due_many(self, priority, room, timeout=None):
        """Takes out up to `room` items whose priorities are at most this one: a list."""
        items, done = (_Item * room)(), ctypes.c_size_t()
        _check(_C.pq_pop_due_many(self._own, priority, items, room, _until(timeout), done, None), _EMPTY, _NOT_DUE)
        return [(it.priority, it.value) for it in items[: done.value]]

    def reschedule(self, ticket, priority, timeout=None):
        """Moves the item of this ticket, and returns its new one."""
        number = _WORD()
        return number.value if _check(_C.pq_reschedule(self._own, ticket, priority, _until(timeout), number), _GONE) else None

    def shut(self):
        """Refuses pushes from now on."""
        _check(_C.pq_shut(self._queue))

    def close(self):
        """Closes the queue, and drops what is left. Its memory is freed with this object."""
        _check(_C.pq_close(self._queue, None))
