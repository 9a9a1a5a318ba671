"""The tables of scripts/trials bench in which threads think between their calls: what a run is scripts/peers/light.hpp says."""
from bench_runs import Trial, median, shown, table

TABLES = ("light", "light-busy")
# The kinds, each with its program.
KINDS = {
    "c-queue": "light",
    "c-own": "light",
    "rust-crate": "light_rust",
    "rust-own": "light_rust",
    "std-mutex": "light",
    "adaptive-mutex": "light",
    "rust-mutex": "light_rust",
    "rust-parking-lot": "light_parked",
    "tbb": "light_tbb",
}
THREADS = [1, 2, 4, 16, 64]
THINKS = [0, 200, 1000, 5000, 20000, 50000]
# A run takes so many milliseconds for each thread at least, so that each has its turn where there are many.
EACH = 5
# Figures of a run, by where they stand in its line.
MEAN, HALF, MOST, NEARLY_ALL, WALL, PROCESSOR, SLOWEST = range(3, 10)
# What a row is, and what the cells of a table show.
ROW = "threads, think time"
SHOWN = [
    ("the mean / what 99 of 100 take at most / 999 of 1000", MEAN, MOST, NEARLY_ALL),
    ("what 50 of 100 take at most / with its think time by the wall / of a processor", HALF, WALL, PROCESSOR),
]
RATIOS = [MEAN, MOST, NEARLY_ALL, WALL]
COMPARED = [("c-queue", "std-mutex"), ("c-queue", "adaptive-mutex"), ("rust-crate", "rust-mutex")]


def trial(asked, kind, threads, think):
    return Trial("light", kind, (threads, think, max(asked.milliseconds, EACH * threads)), KINDS[kind])


def named(threads, think):
    """Returns what a row is called."""
    time = "0" if think == 0 else f"{think / 1000:g} us" if think >= 1000 else f"{think} ns"
    return f"{threads} thread{'s' if threads > 1 else ''}, {time}"


def medians_of(bench, name, kinds, loads):
    """Makes the runs of these kinds under these loads: the medians of the figures of each."""
    cells = {(kind, load): trial(bench.asked, kind, *load) for kind in kinds for load in loads}
    figures = bench.runs(name, list(cells.values()), bench.asked.runs)
    return {it: [median(figures, cell, at) for at in range(SLOWEST + 1)] for it, cell in cells.items()}


def light(bench, name):
    """Returns the tables of threads that think between their calls."""
    asked = bench.asked
    kinds = [it for it in bench.there(KINDS) if it in asked.kinds]
    threads = asked.given or THREADS
    loads = [(it, think) for it in threads for think in asked.thinks]
    medians = medians_of(bench, name, kinds, loads)
    runs = f"{asked.runs} runs of {asked.milliseconds} ms or more; threads that compute for so long on average before each call"
    for title, *which in SHOWN:
        cells = {it: " / ".join(shown(figures[at]) for at in which) for it, figures in medians.items()}
        rows = [[named(*load), *(cells[kind, load] for kind in kinds)] for load in loads]
        yield table(bench, f"Nanoseconds a call, {title}, medians of {runs}", [ROW, *(f"`{it}`" for it in kinds)], rows)
    pairs = [it for it in COMPARED if set(it) <= set(kinds)]
    if pairs:
        yield ratios(bench, pairs, loads, medians)
    if 0 in asked.thinks:
        rows = [[f"`{kind}`", *(f"{medians[kind, (it, 0)][SLOWEST] / 1000:.2f}" for it in threads)] for kind in kinds]
        title = f"Calls of the slowest thread to those of the mean one where none thinks, median of {asked.runs} runs"
        yield table(bench, title, ["threads", *threads], rows)


def ratios(bench, pairs, loads, medians):
    """Returns the table of how many times as long one kind takes as another."""
    rows = []
    for load in loads:
        both = [(medians[one, load], medians[other, load]) for one, other in pairs]
        rows.append([named(*load), *(" / ".join(f"{one[at] / other[at]:.2f}" for at in RATIOS) for one, other in both)])
    title = "How many times as long, by these medians: the mean / 99 of 100 / 999 of 1000 / by the wall"
    return table(bench, title, [ROW, *(f"`{one}` to `{other}`" for one, other in pairs)], rows)
