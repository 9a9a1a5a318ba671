"""The turns in which shares of wrong bodies are tried beside proofs, in what memory these leave."""
import os
import re
import threading

from tree import text_of

# The free memory beside which another check may begin while proofs run, and how often that is looked at.
LEAST_MEMORY = 6e9
SECONDS_BETWEEN_LOOKS = 5


class Turns:
    """Hands out the shares that are to be tried, those with the most to try first, each once what it waits for is proved."""

    def __init__(self, shares, below):
        self.left, self.below, self.proved = sorted(shares, key=lambda it: -len(it[1])), below, set()
        self.is_over, self.changed = False, threading.Condition()

    def tell(self, crate):
        """Is told of a crate that it is proved, or of None that no other will be."""
        with self.changed:
            self.proved.add(crate)
            self.is_over = self.is_over or crate is None
            self.changed.notify_all()

    def next(self, waits):
        """Waits for a share that can be tried, and returns it, or None where there will be no more; who waits for the end of all
        proofs gets none before."""
        with self.changed:
            while True:
                ready = next((it for it in self.left if self.below[it[0]] <= self.proved), None)
                if ready is None and (self.is_over or not self.left):
                    return None
                if ready is not None and (self.is_over or not waits) and (self.is_over and not waits or free_memory() >= LEAST_MEMORY):
                    self.left.remove(ready)
                    return ready
                self.changed.wait(SECONDS_BETWEEN_LOOKS if ready else None)


def free_memory():
    """Returns the bytes of memory that can be had, within the limit of a control group too."""
    free = 1024 * int(re.search(r"MemAvailable: +(\d+)", text_of("/proc/meminfo"))[1])
    group = "/sys/fs/cgroup/memory"
    limit = text_of(f"{group}.max").strip() if os.path.exists(f"{group}.max") else "max"
    return free if limit == "max" else min(free, int(limit) - int(re.search(r"anon (\d+)", text_of(f"{group}.stat"))[1]))
