"""The tables of scripts/trials bench of a queue that holds many items: what a run is stands in scripts/peers/hold.cpp."""
import re
import shutil
import subprocess
import sys

from bench_runs import Meter, Trial, median, shown, table

TABLES = ("hold", "instructions")
# The kinds, each with its program.
KINDS = dict.fromkeys(("c-queue", "std-heap", "four-heap", "hole-heap"), "hold")
ITEMS = [1, *(10**it for it in range(2, 8))]
# Figures of a run, by where they stand in its line.
HELD, GREW, LONGEST = 2, 3, 4
# Instructions are the difference of two runs of so many operations, over a queue of so many items at most.
OPERATIONS, MOST_ITEMS = (10000, 20000), 100000
COUNTS = ["valgrind", "--tool=callgrind", "--callgrind-out-file=/dev/null"]


def with_ratios(bench, title, kinds, figures):
    """Returns a table of the figures of each kind by items, with the ratio of the queue's to those of the standard library's heap."""
    rows = []
    for items in sorted({it for _, it in figures}):
        ours, others = (figures.get((kind, items)) for kind in ("c-queue", "std-heap"))
        ratio = f"{ours / others:.2f}" if ours and others else "–"
        rows.append([f"{items:,}", *(shown(figures[it, items]) for it in kinds), ratio])
    return table(bench, title, ["items", *(f"`{it}`" for it in kinds), "`c-queue` to `std-heap`"], rows)


def hold(bench):
    """Returns the tables of one thread that pops the first item and pushes one later, over and over."""
    asked = bench.asked
    kinds = [it for it in bench.there(KINDS) if it in asked.kinds]
    parts = [(kind, items) for kind in kinds for items in asked.items]
    cells = {part: Trial("hold", part[0], (part[1], asked.operations), KINDS[part[0]]) for part in parts}
    figures = bench.runs("hold", list(cells.values()), asked.runs)
    held = {it: median(figures, cell, HELD) / asked.operations for it, cell in cells.items()}
    title = f"Nanoseconds for a pop and a push; one thread, {asked.operations:,} of both, median of {asked.runs} runs"
    yield with_ratios(bench, title, kinds, held)
    longest = {it: median(figures, cell, LONGEST) / 1000 for it, cell in cells.items()}
    mean = {it: median(figures, cell, GREW) / it[1] for it, cell in cells.items()}
    for title, figure in (("Microseconds of the longest push while the queue grows to so many items", longest),
                        ("Nanoseconds of the mean push while it grows", mean)):
        rows = [[f"{items:,}", *(shown(figure[it, items]) for it in kinds)] for items in asked.items]
        yield table(bench, f"{title}; one thread, median of {asked.runs} runs", ["items", *(f"`{it}`" for it in kinds)], rows)


def counted(program, kind, items):
    """Returns how many instructions a pop and a push take, with what the program does itself."""
    counts = []
    for operations in OPERATIONS:
        did = subprocess.run([*COUNTS, *program, kind, str(items), str(operations)], capture_output=True, text=True)
        counts.append(int(re.search(r"Collected : (\d+)", did.stderr)[1]))
    return (counts[1] - counts[0]) / (OPERATIONS[1] - OPERATIONS[0])


def instructions(bench):
    """Returns the table of the instructions that the same takes, which no other process changes."""
    kinds = [it for it in bench.there(KINDS) if it in bench.asked.kinds]
    if not shutil.which(COUNTS[0]):
        print("bench: no valgrind, so no instructions", file=sys.stderr)
        return
    parts = [(kind, items) for kind in kinds for items in bench.asked.items if items <= MOST_ITEMS]
    meter = Meter(bench.busy)
    figures = {it: counted(bench.built[KINDS[it[0]]], *it) for it in parts}
    bench.others = meter.others()
    yield with_ratios(bench, "Instructions of a pop and a push, by callgrind; one thread", kinds, figures)
