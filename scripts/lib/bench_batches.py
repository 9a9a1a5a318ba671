"""The table of scripts/trials bench of batches: what a run is stands in scripts/peers/batches.cpp."""
from bench_runs import Trial, median, shown, table

TABLES = ("batches",)
OVER = ("c-batches", "c-calls", "std-mutex")
# The kinds, each with its program.
KINDS = {"batches": "batches"}
SIZES, WORKERS = (1, 4, 16, 64), (1, 4)
# Figures of a run, by where they stand in its line.
ITEMS, TOOK = 2, 3


def batches(bench):
    """Returns the table of what an item takes, in and out, in batches of each size."""
    asked = bench.asked
    bench.there(KINDS)
    loads = [(workers, size) for workers in asked.given or WORKERS for size in SIZES]
    cells = {(over, *load): Trial("batches", over, load, "batches") for over in OVER for load in loads}
    figures = bench.runs("batches", list(cells.values()), asked.runs)
    rows = []
    for load in loads:
        each = [median(figures, cells[over, *load], TOOK) / median(figures, cells[over, *load], ITEMS) / 2 for over in OVER]
        rows.append([*map(str, load), *map(shown, each), f"{each[0] / each[1]:.2f}", f"{each[0] / each[2]:.2f}"])
    title = f"Nanoseconds an item that is pushed or popped, in batches, medians of {asked.runs} runs"
    head = ["workers", "items of a batch", *(f"`{it}`" for it in OVER), "batches to calls", "to the mutex"]
    return table(bench, title, head, rows)
