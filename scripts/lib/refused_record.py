"""The record of the wrong bodies that the prover refused, REFUSED: a line for each crate, 'crate count edits sources date toolchain logic'.

The two sums are of the crate's edits, and of the src, specs and proofs of the crate and of those that it stands on, as they stood when all
of its wrong bodies were tried. A line that begins with 'crate:strongest' is of the strongest alone. What one version of the toolchain
refused counts for another version with the same logic: in that logic the clause is false of the body.
"""
import datetime
import hashlib
import os
import subprocess

from crate_list import with_below
from edits import WRONG_BODIES, edits_of
from sources import PARTS
from tree import TOP

RECORD = f"{TOP}/REFUSED"
STRONGEST = ":strongest"
HEAD = "# crate, wrong bodies that the prover refused, sum of these edits, sum of the sources, date, toolchain, its logic\n"


def edits_in(name):
    """Returns the wrong bodies of which the line of this name tells."""
    crate, _, which = name.partition(":")
    return [it for it in edits_of(WRONG_BODIES, crate) if it.is_strongest() or not which]


def sum_of_edits(name):
    """Returns a sum of what these wrong bodies change, and of where each is to be refused."""
    told = [(it.name(), it.pairs, it.said("# at: "), it.said("# refused: ")) for it in edits_in(name)]
    return hashlib.sha256(repr(told).encode()).hexdigest()[:16]


def sum_of_files(crate):
    """Returns a sum of all files of the crate that a proof reads."""
    whole, top = hashlib.sha256(), f"{TOP}/crates/{crate}"
    for folder in sorted(folder for part in PARTS for folder, _, _ in os.walk(f"{top}/{part}")):
        for name in sorted(os.listdir(folder)):
            if os.path.isfile(f"{folder}/{name}"):
                with open(f"{folder}/{name}", "rb") as it:
                    whole.update(f"{hashlib.sha256(it.read()).hexdigest()}  {os.path.relpath(folder, top)}/{name}\n".encode())
    return whole.hexdigest()


def sum_of_sources(crate):
    """Returns a sum of all files that a proof of the crate reads: its own, and those of the crates that it stands on."""
    told = [(it, sum_of_files(it)) for it in with_below([crate])]
    return hashlib.sha256(repr(told).encode()).hexdigest()[:16]


def sums_of(name):
    """Returns the number of the wrong bodies of a line of this name, the sum of these, and that of the crate's sources."""
    return str(len(edits_in(name))), sum_of_edits(name), sum_of_sources(name.partition(":")[0])


def toolchain():
    """Returns the name of the toolchain, and that of its logic."""
    name, _, logic = subprocess.run(["rt", "version"], capture_output=True, text=True, check=True).stdout.split()
    return name, logic


def is_recorded(name):
    """Whether a line of this name tells of the wrong bodies as they are, over the sources as they are, in the logic of this toolchain."""
    told = recorded().get(name, ())
    return told[:3] == sums_of(name) and told[-1] == toolchain()[1]


def recorded():
    """Returns the words of each line, by its name: that of a crate, or of a crate's strongest."""
    if not os.path.isfile(RECORD):
        return {}
    with open(RECORD, encoding="utf-8") as it:
        return {words[0]: tuple(words[1:]) for words in map(str.split, it) if words and words[0] != "#"}


def write(sums):
    """Enters lines of these names, whose sums are those from before the trial, where they still have them: those that were left out."""
    changed = [name for name, told in sums.items() if sums_of(name) != told]
    lines = recorded() | {name: (*told, str(datetime.date.today()), *toolchain()) for name, told in sums.items() if name not in changed}
    with open(f"{RECORD}.new", "w", encoding="utf-8") as it:
        it.write(HEAD)
        it.writelines(f"{' '.join([name, *lines[name]])}\n" for name in sorted(lines) if edits_in(name))
    os.replace(f"{RECORD}.new", RECORD)
    return changed
