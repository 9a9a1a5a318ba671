"""The table of scripts/trials bench of timers most of which are cancelled: what a run is stands in scripts/peers/cancels.cpp."""
from bench_runs import Trial, median, table

TABLES = ("cancels",)
# The kind, with its program; and what cancels a timer.
KINDS = {"cancels": "cancels"}
CANCELS = {
    "removed": "removed by its ticket from the queue",
    "marked": "marked, and left in the queue",
    "tree": "erased from a `std::set` under a `std::mutex`",
}
COUNT, MILLISECONDS = 1000000, 2000


def cancels(bench):
    """Returns the table of what the timers take, and how late those run that are not cancelled."""
    cells = {it: Trial("cancels", it, (COUNT, MILLISECONDS), "cancels") for it in CANCELS}
    figures = bench.runs("cancels", list(cells.values()), bench.asked.runs)
    rows = []
    for it, text in CANCELS.items():
        processor, memory, half, most = (median(figures, cells[it], at) for at in range(1, 5))
        rows.append([text, f"{processor / 1e6:,.0f}", f"{memory / 1024:.1f}", f"{half / 1e3:,.0f}", f"{most / 1e3:,.0f}"])
    title = f"{COUNT:,} timers in {MILLISECONDS / 1000:.0f} seconds, set by 4 threads and run by 2, 90 % of them cancelled"
    title += f", medians of {bench.asked.runs} runs"
    head = ["a cancelled timer is", "processor time, ms", "memory, MiB", "half are late by at most, us", "99 of 100, us"]
    return table(bench, title, head, rows)
