"""Times a priority queue that threads share, by `queue_bench` for Rattle and by clients of the archive, beside locks and queues of other
makers, which keep the same data where they can: 24 bytes an entry, 64 a line, the last 1,024 lines, those for Rattle 65,536.

A run that lost an item, or a line of its journal, fails the whole. All runs of a table are made in one shuffled order, so many of each,
and the table has their medians. The tables:

means   threads that do nothing but call: each pushes and then pops. Nanoseconds a call of each kind of queue with each number of workers,
        with the quartiles in brackets, and how long some take beside others
light   threads that think between their calls, which push and pop in turn over 1,000 items: what a call takes, and a thread for each
        call, think time included, by the wall and of a processor; and of threads that don't think the share of the slowest
light-busy  the same beside as many busy processes as there are processors
hold    one thread that pops the first item of so many and pushes one later, over and over: nanoseconds for both; and what the longest
        push took while the queue grew
instructions    how many the same takes, as callgrind counts them (valgrind)
batches     threads that take so many items out under one lock, and put as many in: nanoseconds an item, beside a call for each item, and
        a std::mutex that is locked once for as many
services    a pipeline whose number of items is bounded, beside condition variables and a channel of crossbeam-channel
        (librust-crossbeam-channel-dev); sizes, a journal that is read back, and pushes that are on disk when they end
cancels     a million timers, nine of ten of which are cancelled: removed by their tickets, marked in the queue, or erased from a std::set
        under a std::mutex: time of processors, memory, and how late the others run
programs    workers that share tasks, a simulation in time steps, a scheduler most of whose timers are cancelled, and Dijkstra's and A*'s
        searches of a grid, over the queue and over a std::mutex around std::priority_queue: how long each takes

Kinds of means: of queue_bench, which are the proved calls for Rattle, array, a queue whose journal is all in memory; array-lasting, one
that forgets; array-posts, where each call posts; mutex-book, a lock round a Book. Of the archive: c-queue, by members that have joined;
c-own, by pq_own. Peers: cpp-book and cpp-heap, a std::mutex round std::priority_queue with a journal and without; rust-book and rust-heap,
a Mutex round BinaryHeap likewise; tbb, oneTBB's concurrent_priority_queue (libtbb-dev). Of queues of functions, each of which is called
once it is popped: cpp-tasks and rust-tasks, those of the library; cpp-functions, a std::mutex round std::priority_queue, and
rust-closures, a Mutex round BinaryHeap. Of light: c-queue and c-own; rust-crate and rust-own, the same queue by the crate for Rust;
std-mutex and adaptive-mutex, such mutexes around std::priority_queue and the last 1,024 lines; rust-mutex, the same in Rust, and
rust-parking-lot, that by a mutex of parking_lot (librust-parking-lot-dev); tbb. Of hold: c-queue, and a std::mutex and such lines around
std-heap, std::priority_queue, four-heap, a 4-ary heap, and hole-heap, a binary one with holes. What isn't there is told, and has no rows.

Above each table stands how many processors other processes took while it was measured: where that is more than one, the figures are
not called quiet. The programs are built over the archive FILE, or out/libflatpq.a, which is built first where it has to be.
"""
import argparse
import os
import re
import statistics
import tempfile
from dataclasses import dataclass

import bench_batches
import bench_cancels
import bench_hold
import bench_light
import bench_services
import bench_uses
import stores
from bench_programs import build
from bench_runs import Bench, Busy, ratio, table

# The kind whose runs tell of their rounds, which no table has.
TALLIED = "array-rounds"
# The kinds that are not of queue_bench: the program, and its words before the load.
PROGRAM_OF = {
    "c-queue": ("c_queue", ["queue"]),
    "c-own": ("c_queue", ["own"]),
    "cpp-book": ("cpp_mutex", ["book"]),
    "cpp-heap": ("cpp_mutex", ["heap"]),
    "rust-book": ("rust_mutex", ["book"]),
    "rust-heap": ("rust_mutex", ["heap"]),
    "tbb": ("tbb_queue", []),
    "cpp-tasks": ("cpp_tasks", ["queue"]),
    "cpp-functions": ("cpp_tasks", ["mutex"]),
    "rust-tasks": ("rust_tasks", ["queue"]),
    "rust-closures": ("rust_tasks", ["mutex"]),
}
KINDS = [*(it for it in stores.KINDS if it != TALLIED), *PROGRAM_OF]
# The tables that have modules of their own.
APART = (bench_light, bench_hold, bench_uses, bench_batches, bench_services, bench_cancels)
TABLES = ["means", *(it for module in APART for it in module.TABLES)]
# The kinds that may be asked for.
ASKED = list(dict.fromkeys([*KINDS, *(it for module in APART for it in module.KINDS)]))
WORKERS = [1, 2, 4, 8, 16, 64]
AUDITED = re.compile(r"([\w-]+),(\d+),(\d+),(\d+),audit ok\n")
# What stands behind the means: calls for Rattle beside a lock round a heap and a journal, a lasting queue beside one whose journal is kept
# whole (the two differ where there are more calls than the 65,536 lines to which it writes over and over), and calls for C beside peers.
COMPARED = [("array", "mutex-book"), ("array-posts", "mutex-book"), ("array-lasting", "array"), ("c-queue", "array-lasting")]
COMPARED += [("c-own", "c-queue"), *(("c-queue", it) for it in ("cpp-book", "cpp-heap", "rust-book", "rust-heap", "tbb"))]
COMPARED += [("cpp-tasks", "cpp-functions"), ("rust-tasks", "rust-closures")]


@dataclass(frozen=True)
class Cell:
    """A kind of run: what the workers share, how many they are, and how many each pushes and pops."""

    kind: str
    workers: int
    pushes: int
    pops: int

    def program(self):
        return PROGRAM_OF[self.kind][0] if self.kind in PROGRAM_OF else "queue_bench"

    def command(self, built):
        words = PROGRAM_OF[self.kind][1] if self.kind in PROGRAM_OF else [self.kind]
        return [*built[self.program()], *words, *(str(it) for it in (self.workers, self.pushes, self.pops))]

    def figures(self, text):
        """Returns the nanoseconds a call of a run that printed this, if it was sound."""
        found = AUDITED.fullmatch(text)
        return found and [int(found[4]) / int(found[3])]

    def line(self, text):
        return text


def words(given):
    """Returns what the command line asks for."""
    it = argparse.ArgumentParser(prog="scripts/trials bench", description=__doc__, formatter_class=argparse.RawDescriptionHelpFormatter)
    it.add_argument("--tables", nargs="+", choices=TABLES, default=list(TABLES), metavar="TABLE", help=", ".join(TABLES))
    it.add_argument("--runs", type=int, default=7, metavar="N", help="runs of each kind with each number of workers (7)")
    it.add_argument("--pushes", type=int, default=2000, metavar="P", help="pushes of each worker of means (2000)")
    it.add_argument("--pops", type=int, default=2000, metavar="Q", help="pops of each, at most P (2000)")
    it.add_argument("--kinds", nargs="+", choices=ASKED, default=ASKED, metavar="KIND", help=", ".join(ASKED))
    it.add_argument("--workers", type=int, nargs="+", metavar="W", help="numbers of workers, or of threads that think, 1 to 64")
    it.add_argument("--thinks", type=int, nargs="+", default=bench_light.THINKS, metavar="NS", help="think times, in nanoseconds")
    it.add_argument("--milliseconds", type=int, default=60, metavar="MS", help="of a run of light (60), but 5 for each thread at least")
    it.add_argument("--items", type=int, nargs="+", default=bench_hold.ITEMS, metavar="N", help="how many items hold has")
    it.add_argument("--operations", type=int, default=1000000, metavar="N", help="of a run of hold, and in proportion of services (1000000)")
    it.add_argument("--library", metavar="FILE", help="the archive")
    it.add_argument("--program", metavar="FILE", help="queue_bench, as it was proved and built; else it is where that is not done")
    it.add_argument("--csv", metavar="FILE", help="where the line of each run is written, as its program prints it")
    asked = it.parse_args(given)
    asked.given, asked.workers = asked.workers, asked.workers or WORKERS
    return asked


def programs_of(kinds):
    """Returns those of these kinds that the means have, each with its program."""
    return {it: Cell(it, 1, 1, 0).program() for it in kinds if it in KINDS}


def programs(asked):
    """Returns the programs of the tables that are asked for."""
    names = set(programs_of(asked.kinds).values()) if "means" in asked.tables else set()
    for module in APART:
        if set(module.TABLES) & set(asked.tables):
            names |= {program for kind, program in module.KINDS.items() if kind in asked.kinds}
    return names


def quartiles(figures, cell):
    """Returns the median and the quartiles of a cell's times, as text."""
    times = [run[0] for run in figures.get(cell, [])]
    if not times:
        return "–"
    low, middle, high = statistics.quantiles(times, n=4, method="inclusive") if len(times) > 1 else times * 3
    return f"{middle:.0f} ({low:.0f}–{high:.0f})"


def means(bench):
    """Returns the table of the means, and that of the ratios of those that are compared."""
    asked = bench.asked
    load = (asked.pushes, asked.pops)
    kinds = bench.there(programs_of(asked.kinds))
    cells = {(kind, it): Cell(kind, it, *load) for kind in kinds for it in asked.workers}
    figures = bench.runs("means", list(cells.values()), asked.runs)
    title = f"Nanoseconds a call, median (quartiles); each worker {load[0]} pushes and {load[1]} pops, {asked.runs} runs"
    head = ["workers", *asked.workers]
    yield table(bench, title, head, [[f"`{kind}`", *(quartiles(figures, cells[kind, it]) for it in asked.workers)] for kind in kinds])
    rows = [
        [f"`{kind}` to `{other}`", *(ratio(figures, cells[kind, it], cells[other, it]) for it in asked.workers)]
        for kind, other in COMPARED
        if {kind, other} <= set(kinds)
    ]
    if rows:
        yield table(bench, "How many times as long, by these medians", head, rows)


def quiet_tables(bench):
    """Makes those of the tables that were asked for beside which nothing is to run."""
    asked = bench.asked.tables
    if "light" in asked:
        yield from bench_light.light(bench, "light")
    if "hold" in asked:
        yield from bench_hold.hold(bench)
    if "instructions" in asked:
        yield from bench_hold.instructions(bench)
    if "programs" in asked:
        yield bench_uses.uses(bench)
    if "batches" in asked:
        yield bench_batches.batches(bench)
    if "services" in asked:
        yield bench_services.services(bench)
    if "cancels" in asked:
        yield bench_cancels.cancels(bench)
    if "means" in asked:
        yield from means(bench)


def main(given):
    asked = words(given)
    with tempfile.TemporaryDirectory() as folder:
        bench = Bench(asked, build(folder, programs(asked), asked))
        for it in quiet_tables(bench):
            print(it)
        if "light-busy" in asked.tables:
            with Busy(len(os.sched_getaffinity(0))) as bench.busy:
                for it in bench_light.light(bench, "light, busy"):
                    print(it)
    if asked.csv:
        with open(asked.csv, "w", encoding="utf-8") as it:
            it.writelines(bench.lines)
    return 0
