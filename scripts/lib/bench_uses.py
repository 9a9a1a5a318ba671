"""The table of scripts/trials bench of programs as users write them: what these do stands in scripts/peers, in each."""
from bench_runs import Trial, median, table

TABLES = ("programs",)
# The programs are the kinds, each with its name and how much it has to do.
COUNTS = {"workers": 100000, "simulation": 10000, "timers": 200000, "dijkstra": 700, "astar": 700}
KINDS = {it: it for it in COUNTS}
WORKERS = [1, 2, 4]
OVER = ("queue", "mutex")
# Where the nanoseconds of a run stand in its line.
TOOK = 2


def uses(bench):
    """Returns the table of what programs take over the queue and over a mutex."""
    asked = bench.asked
    loads = [(kind, it) for kind in bench.there(KINDS) if kind in asked.kinds for it in asked.given or WORKERS]
    cells = {(over, *load): Trial(load[0], over, (load[1], COUNTS[load[0]]), KINDS[load[0]]) for over in OVER for load in loads}
    figures = bench.runs("programs", list(cells.values()), asked.runs)
    rows = []
    for kind, workers in loads:
        queue, mutex = (median(figures, cells[over, kind, workers], TOOK) / 1e6 for over in OVER)
        rows.append([f"`{kind}`", str(workers), f"{queue:.1f}", f"{mutex:.1f}", f"{queue / mutex:.2f}"])
    title = f"Milliseconds of programs as users write them, medians of {asked.runs} runs"
    return table(bench, title, ["program", "workers", "queue", "mutex and heap", "ratio"], rows)
