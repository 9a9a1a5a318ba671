"""Says whether what README.md and the pages of docs/ show is what stands, and what the program writes.

A block of code passes where its lines stand in one file of the proved crate readme_examples, of examples/ or of
tests/clients/, in their order; white space and comments don't count. A run, that is an indented line '$ ./flatpq ..' and the lines
below it, passes where those are all that a row of tests/rows writes, or a drawing of tests/drawings: the rows
are played on the built program.
"""
import glob
import re

from transcripts import all_rows
from tree import TOP, text_of

PLACES = "crates/readme_examples/src/*.rt", "examples/*/*.*", "tests/clients/*/*.*"


def plain_lines(text):
    """Returns the lines without comments and white space, where something is left of them."""
    lines = [re.sub(r"\s+", "", line.partition("//")[0]) for line in text.splitlines()]
    return [line for line in lines if line]


def stands(lines, text):
    """Returns whether the lines stand in the text one after another."""
    at = 0
    for line in lines:
        found = text.find(line, at)
        if found < 0:
            return False
        at = found + len(line)
    return True


def unproved_blocks(text):
    """Returns the blocks of code, and those of them that no file of readme_examples, examples/ or tests/clients/ has."""
    files = [it for place in PLACES for it in glob.glob(f"{TOP}/{place}")]
    proved = ["".join(plain_lines(text_of(it))) for it in files]
    blocks = re.findall(r"(?ms)^```(?:rust|cpp|c)\n(.*?)^```$", text)
    return blocks, [it for it in blocks if not any(stands(plain_lines(it), text) for text in proved)]


def untried_runs(text):
    """Returns the runs of the program, and those of them whose output is that of no row and no drawing."""
    written = {it.get("stdout", b"").decode() for it in all_rows().values()}
    written |= {text_of(it) for it in glob.glob(f"{TOP}/tests/drawings/*.drawing")}
    runs = re.findall(r"(?m)^    \$ .*\./flatpq.*\n(?:    .*\n)*", text)
    return runs, [it for it in runs if "".join(line[4:] + "\n" for line in it.splitlines()[1:]) not in written]


def check():
    """Prints what is wrong, and returns how many passed and failed."""
    shown = failed = 0
    for file in "README.md", "docs/GUIDE.md", "docs/PROGRAM.md":
        text = text_of(f"{TOP}/{file}")
        blocks, unproved = unproved_blocks(text)
        runs, untried = untried_runs(text)
        for it in unproved:
            print(f"FAILED no file of crates/readme_examples, examples/ or tests/clients/ has these lines of {file}:\n{it}", end="")
        for it in untried:
            print(f"FAILED no row and no drawing has what {file} tells of this run:\n{it}", end="")
        shown += len(blocks) + len(runs)
        failed += len(unproved) + len(untried)
    return shown - failed, failed
