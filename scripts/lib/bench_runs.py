"""How scripts/trials bench makes the runs of a table, in one shuffled order, and what it makes of their figures."""
import argparse
import datetime
import os
import random
import re
import statistics
import subprocess
import sys
import time
from dataclasses import dataclass, field

from bench_programs import stop

# A run that takes so many seconds has failed.
SECONDS = 300
TICKS = os.sysconf("SC_CLK_TCK")


@dataclass(frozen=True)
class Trial:
    """A kind of run of a program whose words are a kind and numbers: its line has the table, the kind, figures and the audit."""

    table: str
    kind: str
    numbers: tuple
    made_by: str

    def program(self):
        return self.made_by

    def command(self, built):
        return [*built[self.made_by], self.kind, *map(str, self.numbers)]

    def figures(self, text):
        found = re.fullmatch(rf"{self.table},{self.kind},((?:\d+,)+)audit ok\n", text)
        return found and [int(it) for it in found[1].split(",")[:-1]]

    def line(self, text):
        return text


def ticks_of(process):
    """Returns what a process that runs has taken of the processors, in clock ticks."""
    with open(f"/proc/{process}/stat", encoding="utf-8") as it:
        fields = it.read().rpartition(")")[2].split()
    return int(fields[11]) + int(fields[12])


class Meter:
    """How many processors other processes take while this one runs its children, of which those may be busy."""

    def __init__(self, busy):
        self.busy, self.began = busy, None
        self.began = self.now()

    def now(self):
        """Returns the time, and what others have taken until now."""
        with open("/proc/stat", encoding="utf-8") as it:
            user, nice, system, _, _, *others = (int(word) for word in it.readline().split()[1:9])
        own = sum(os.times()[:4]) + sum(ticks_of(it) for it in self.busy) / TICKS
        return time.monotonic(), (user + nice + system + sum(others)) / TICKS - own

    def others(self):
        """Returns how many processors others have taken since it began."""
        (began, before), (ended, after) = self.began, self.now()
        return max(0.0, (after - before) / (ended - began))


@dataclass
class Busy:
    """Busy processes beside the runs, so many."""

    number: int

    def __enter__(self):
        command = ["sh", "-c", "while :; do :; done"]
        self.started = [subprocess.Popen(command) for _ in range(self.number)]
        return [it.pid for it in self.started]

    def __exit__(self, *_):
        for it in self.started:
            it.kill()
        for it in self.started:
            it.wait()


@dataclass
class Bench:
    """What was asked for, the programs, the busy processes beside the runs, and the line of each run so far."""

    asked: argparse.Namespace
    built: dict
    busy: list = field(default_factory=list)
    lines: list = field(default_factory=list)
    # How many processors other processes took in the last runs.
    others: float = 0.0

    def run(self, cell):
        """Runs a cell once: its figures."""
        command = cell.command(self.built)
        try:
            did = subprocess.run(command, capture_output=True, text=True, timeout=SECONDS)
        except subprocess.TimeoutExpired:
            stop(f"{' '.join(command[1:])}: no end after {SECONDS} seconds")
        figures = cell.figures(did.stdout)
        if did.returncode or not figures:
            stop(f"{' '.join(command[1:])}: {(did.stdout + did.stderr).strip() or did.returncode}")
        self.lines.append(cell.line(did.stdout))
        return figures

    def runs(self, name, cells, number):
        """Runs each cell so often, all in one shuffled order: the figures of each run of each."""
        order = [it for it in cells if it.program() in self.built] * number
        random.shuffle(order)
        figures = {cell: [] for cell in order}
        meter = Meter(self.busy)
        for at, cell in enumerate(order, 1):
            print(f"\rbench: {name}: run {at} of {len(order)} ", end="", file=sys.stderr, flush=True)
            figures[cell].append(self.run(cell))
        print(file=sys.stderr)
        self.others = meter.others()
        return figures

    def there(self, programs):
        """Returns those of these kinds, each with its program, whose program is there."""
        return [kind for kind, program in programs.items() if program in self.built]

    def beside(self):
        """Says what ran beside the last runs. They are called quiet only where others took no more than a processor."""
        told = f"other processes took {self.others:.2f} processors"
        if self.busy:
            return f"beside {len(self.busy)} busy processes; {told}" + (" more" if self.others > 1 else "")
        return f"quiet: {told}" if self.others <= 1 else f"not quiet: {told}"


def median(figures, cell, at=0):
    """Returns the median of this figure of a cell's runs, if there were any."""
    runs = figures.get(cell, [])
    return statistics.median(run[at] for run in runs) if runs else None


def shown(figure):
    return "–" if figure is None else f"{figure:,.0f}" if figure >= 100 else f"{figure:.3g}"


def ratio(figures, cell, other, at=0):
    one, two = median(figures, cell, at), median(figures, other, at)
    return f"{one / two:.2f}" if one and two else "–"


def machine():
    """Returns the processor's model, and how many processors this process may use."""
    with open("/proc/cpuinfo", encoding="utf-8") as it:
        model = re.search(r"model name\s*:\s*(.*)", it.read())
    return f"{model[1] if model else 'unknown processor'}, {len(os.sched_getaffinity(0))} processors"


def table(bench, title, head, rows):
    """Returns a table, with a line above it on what it is, where it was measured and when, and what ran beside it."""
    told = [f"{title}; {machine()}, {bench.beside()}; {datetime.date.today().isoformat()}", ""]
    told += ["| " + " | ".join(map(str, head)) + " |", "|---" * len(head) + "|"]
    return "\n".join(told + ["| " + " | ".join(row) + " |" for row in rows]) + "\n"
