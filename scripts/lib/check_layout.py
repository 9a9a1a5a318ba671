"""Says whether every crate is laid out as rt fmt lays it out, on a copy: rt ci refuses one that is not, after minutes. One is counted for
each crate.
"""
import os
import shutil
import subprocess
import tempfile

from tree import TOP


def complaint(folder):
    """Returns what rt fmt says of a crate, or nothing where it is laid out so."""
    did = subprocess.run(["rt", "fmt"], cwd=folder, stdin=subprocess.DEVNULL, capture_output=True, text=True, errors="replace")
    failed = [f"rt fmt ended with status {did.returncode}: {did.stderr.strip()}"] if did.returncode else []
    return "; ".join([*did.stdout.splitlines(), *failed])


def check():
    """Prints what is wrong, and returns how many passed and failed."""
    with tempfile.TemporaryDirectory() as copy:
        shutil.copy(f"{TOP}/crates.txt", copy)
        shutil.copytree(f"{TOP}/crates", f"{copy}/crates", ignore=shutil.ignore_patterns("out"), symlinks=True)
        crates = sorted(os.listdir(f"{copy}/crates"))
        said = {it: complaint(f"{copy}/crates/{it}") for it in crates}
    wrong = {crate: it for crate, it in said.items() if it}
    for crate, it in wrong.items():
        print(f"FAILED {crate}: run rt fmt in its folder: {it}")
    return len(said) - len(wrong), len(wrong)
