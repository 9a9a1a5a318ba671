"""Counts the lines that are not blank of each crate and of what stands over the archive, as a table of docs/PROOF.md."""
import glob

from crate_list import crates
from tree import TOP

# What proves nothing that a user relies on: tests, their aids, examples and the program that measures.
LEFT_OUT = {"part_tests", "queue_tests", "unproved_tests", "test_aids", "readme_examples", "queue_bench"}


def lines_of(pattern):
    """Returns how many lines that are not blank the files of these names have."""
    count = 0
    for file in glob.glob(f"{TOP}/{pattern}", recursive=True):
        with open(file, encoding="utf-8") as it:
            count += sum(1 for line in it if line.strip())
    return count


def print_table():
    """Prints a row for each crate, in the order of crates.txt, and one for all."""
    counted, parts = [it for it in crates() if it not in LEFT_OUT], ("src/**/*.rt", "specs/**/*.antt", "proofs/**/*.antt")
    rows = [(f"`{it}`", *(lines_of(f"crates/{it}/{part}") for part in parts)) for it in counted]
    rows.append(("all", *(sum(it[at] for it in rows) for at in (1, 2, 3))))
    print("| Crate | `src` | `specs` | `proofs` |", "|---|---|---|---|", sep="\n")
    for name, *counts in rows:
        print(f"| {name} |", " | ".join(f"{it:,}" for it in counts), "|")
    source = lines_of("library/*.c") + lines_of("library/*.h")
    print(f"\nNot proved: the header {lines_of('include/*.h'):,}, the C source {source:,}, C++ {lines_of('bindings/cpp/*.hpp'):,}, Rust "
          f"{lines_of('bindings/rust/src/*.rs'):,}.")
