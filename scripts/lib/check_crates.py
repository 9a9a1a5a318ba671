"""Says whether the table of crates in docs/ARCHITECTURE.md has a row for each crate of crates.txt: what it is, and where to begin
reading. What files and names it has is looked for by check_paths. One is counted for each crate.
"""

import crate_list
from tree import TOP, text_of

HEAD = ["Crate", "What it is", "Begin at"]


def cells_of(line):
    """Returns what stands in the columns of a row."""
    return [it.strip() for it in line.strip("|").split("|")]


def rows():
    """Returns the rows of the table below its head, by what their first columns name."""
    lines = text_of(f"{TOP}/docs/ARCHITECTURE.md").splitlines()
    begins = next((at for at, it in enumerate(lines) if cells_of(it) == HEAD), len(lines))
    table = []
    for line in lines[begins + 2 :]:
        if not line.startswith("|"):
            break
        table.append(cells_of(line))
    return {it[0].strip("`"): it for it in table}


def check():
    """Prints what is wrong, and returns how many passed and failed."""
    wanted, shown = set(crate_list.crates()), rows()
    faults = {it: "it has no row" for it in wanted - set(shown)}
    faults |= {it: "crates.txt has no such crate" for it in set(shown) - wanted}
    faults |= {name: "a column is empty, or one too many" for name, it in shown.items() if len(it) != len(HEAD) or not all(it)}
    for name in sorted(faults):
        print(f"FAILED table of crates: {name}: {faults[name]}")
    return len(wanted | set(shown)) - len(faults), len(faults)
