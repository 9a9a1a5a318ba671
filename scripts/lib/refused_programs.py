"""Says whether the compiler refuses the programs that it has to refuse, before any proof.

Each is an edit crates/NAME/must-not-compile/X.edit (scripts/lib/edits.py) of one file, and has a line 'says: TEXT'. It is made on
a copy of the crate, and passes where an error about that file says its TEXT. It stands on the libraries that rt ci, or rt check
in the crate's folder, left behind.
"""
import os
import shutil
import tempfile

from edits import PROGRAMS, edited, edits_of
from proving import Toolchain
from tree import TOP, text_of


def complaint_of(edit, toolchain):
    """Returns why an edit has not passed, or None."""
    with tempfile.TemporaryDirectory() as folder:
        shutil.copytree(f"{TOP}/crates/{edit.crate()}", folder, ignore=shutil.ignore_patterns("out"), dirs_exist_ok=True)
        files, says = {file for file, _, _ in edit.pairs}, edit.said("says: ")
        if len(files) != 1 or len(says) != 1 or not all(os.path.isfile(f"{folder}/{it}") for it in files):
            return "it names no file, no pair or no reason"
        file, text = files.pop(), says.pop()
        after = edited(edit.pairs, lambda it: text_of(f"{folder}/{it}"))
        if after is None:
            return f"it does not fit {file}"
        with open(f"{folder}/{file}", "w", encoding="utf-8") as it:
            it.write(after[file])
        told = toolchain.check(edit.crate(), folder, [""])
    errors = [it for it in told.splitlines() if f"{file}:" in it and "error" in it]
    return None if any(text in it for it in errors) else f"no error says {text}\n{told}"


def try_all():
    """Tells of each edit whether the compiler refuses it: how many passed and failed."""
    edits, toolchain = edits_of(PROGRAMS), Toolchain()
    complaints = [complaint_of(it, toolchain) for it in edits]
    for edit, why in zip(edits, complaints):
        print(f"refused: {edit.crate()}: {edit.name()}" if why is None else f"FAILED {edit.crate()}: {edit.name()}: {why}")
    failed = sum(why is not None for why in complaints)
    return len(edits) - failed, failed
