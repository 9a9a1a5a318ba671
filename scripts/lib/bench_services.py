"""The table of scripts/trials bench of what services do: what a run is stands in scripts/peers/pipeline.cpp and services.cpp."""
from bench_runs import Trial, median, table

TABLES = ("services",)
# The kinds, each with its program.
KINDS = {
    "bounded-queue": "pipeline",
    "bounded-channel": "pipeline_channel",
    "services": "services",
}
WORKERS, ITEMS = 4, 200000
PIPELINES = {"c-queue": "pipeline", "std-conditions": "pipeline", "channel": "pipeline_channel"}
# How often a run does each of the others for a million operations that are asked for, and at least.
COUNTS, FEWEST = {"size": 1000000, "read": 1000000, "durable": 2000, "fsync": 500}, 16


def services(bench):
    """Returns the table of a pipeline whose number of items is bounded, and of sizes, journals that are read back, and durable pushes."""
    asked = bench.asked
    counts = {it: max(FEWEST, count * asked.operations // 1000000) for it, count in COUNTS.items()}
    cells = {it: Trial("pipeline", it, (WORKERS, ITEMS), program) for it, program in PIPELINES.items()}
    cells |= {it: Trial("services", it, (count,), "services") for it, count in counts.items()}
    figures = bench.runs("services", list(cells.values()), asked.runs)
    rows = []
    for it in PIPELINES:
        took = median(figures, cells[it], 2)
        rows.append([f"{WORKERS} producers and consumers, `{it}`, milliseconds", "–" if took is None else f"{took / 1e6:.0f}"])
    each = {it: median(figures, cells[it], 1) / median(figures, cells[it]) for it in counts}
    rows.append(["`pq_size`, nanoseconds a call", f"{each['size']:.0f}"])
    rows.append([f"a journal of {counts['read']:,} lines read back, milliseconds", f"{each['read'] * counts['read'] / 1e6:.0f}"])
    rows.append(["16 threads, each push on disk when it ends, pushes a second", f"{1e9 / each['durable']:,.0f}"])
    rows.append(["a line written and synced for itself, lines a second", f"{1e9 / each['fsync']:,.0f}"])
    return table(bench, f"What services do, medians of {asked.runs} runs", ["what", "median"], rows)
