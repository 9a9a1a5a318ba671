"""Says whether REFUSED is true of the wrong bodies as they are.

A crate that REFUSED names passes if none of its wrong bodies came or changed since all of them were tried and refused. Where its sources
changed since, that is said, and no fault: the test then tries the strongest ones, and a release all. So is a crate that has no line yet,
and a line of the strongest of which some came or changed since.
"""
from edits import WRONG_BODIES, edits_of
from refused_record import STRONGEST, recorded, sums_of


def fault_of(name, told):
    """Returns what is wrong with the line of this name, or None; what is to be known of it is printed."""
    count, edits, sources = sums_of(name)
    if count == "0":
        return f"REFUSED: {name} has no wrong bodies"
    if told[:2] != (count, edits) and not name.endswith(STRONGEST):
        return f"{name}: some wrong bodies were not tried: scripts/try-wrong-bodies --record {name}"
    if told[:3] != (count, edits, sources):
        print(f"note: {name} changed since its wrong bodies were tried, on {told[3]}")
    return None


def check():
    """Prints what is wrong, and returns how many passed and failed."""
    lines = recorded()
    for crate in sorted({it.crate() for it in edits_of(WRONG_BODIES)} - set(lines)):
        print(f"note: REFUSED has no line of {crate}: its wrong bodies were not all tried in one run")
    faults = list(filter(None, (fault_of(name, told) for name, told in lines.items())))
    for it in faults:
        print(f"FAILED {it}")
    return len(lines) - len(faults), len(faults)
