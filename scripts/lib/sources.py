"""The sources that a proof reads: their sum, and whether one has changed. And the record of what was proved of them, PROVED."""
import datetime
import hashlib
import os
import shutil
import subprocess

from tree import TOP

RECORD = f"{TOP}/PROVED"
PARTS = ("src", "specs", "proofs")
# What the test runs and doesn't prove: a crate of tests, and the program that measures, which scripts/trials bench proves.
UNPROVED = ("unproved_tests", "queue_bench")
# What the library has beside the proved core. No proof reads it, and the record of what was proved says nothing of it.
OF_LIBRARY = ("include/flatpq.h", "library")


def places():
    """Returns the files at the top that a proof reads, and the folders of the crates."""
    crates = [f"crates/{it}/{part}" for it in sorted(os.listdir(f"{TOP}/crates")) if it not in UNPROVED for part in PARTS]
    return ["HANDLES", "crates.txt", *(it for it in crates if os.path.isdir(f"{TOP}/{it}"))]


def walked(more=()):
    """Returns each file and folder of the sources that a proof reads, and of these others, from the top."""
    found = []
    for place in [*places(), *more]:
        found.append(place)
        for folder, _, names in os.walk(f"{TOP}/{place}"):
            found.append(os.path.relpath(folder, TOP))
            found += [os.path.relpath(f"{folder}/{it}", TOP) for it in names]
    return sorted(set(found))


def sum_of_sources():
    """Returns the SHA-256 of the lines 'SHA-256 of the file, its name', for all files in the order of their names."""
    whole = hashlib.sha256()
    for name in walked():
        if os.path.isfile(f"{TOP}/{name}"):
            with open(f"{TOP}/{name}", "rb") as it:
                whole.update(f"{hashlib.sha256(it.read()).hexdigest()}  {name}\n".encode())
    return whole.hexdigest()


def is_current(file, more=()):
    """Returns whether this file is there, and no source is newer, nor one of these others."""
    if not os.path.isfile(file):
        return False
    built = os.stat(file).st_mtime_ns
    return all(os.stat(f"{TOP}/{it}").st_mtime_ns <= built for it in walked(more))


def record_of(built):
    """Returns the file in which scripts/prove-all says what it proved, beside what it built of that."""
    return f"{os.path.dirname(built)}/PROVED"


def is_proved(built):
    """Returns whether what scripts/prove-all built is there, as the sources are."""
    return os.path.isfile(record_of(built)) and is_current(built)


def toolchain():
    """Returns the name and the version of the toolchain."""
    return subprocess.run(["rt", "version"], capture_output=True, text=True, check=True).stdout.strip()


def record():
    """Returns the record of these sources, as proved today by this toolchain."""
    return f"sources: {sum_of_sources()}\ntoolchain: {toolchain()}\ndate: {datetime.date.today()}\n"


def recorded(file=RECORD):
    """Returns what PROVED says, or another record, by the names of its lines, or nothing where there is none."""
    if not os.path.isfile(file):
        return {}
    with open(file, encoding="utf-8") as it:
        return dict(line.rstrip("\n").split(": ", 1) for line in it if ": " in line)


def elsewhere():
    """Returns what PROVED says of these sources, and whether they were proved by this toolchain."""
    found = recorded()
    if not found:
        return "no record says whether these sources were proved", False
    if found["sources"] != sum_of_sources():
        return "these sources were changed since they were proved", False
    is_other = bool(shutil.which("rt")) and found["toolchain"] != toolchain()
    other = ", another toolchain than this one" if is_other else ""
    return f"these very sources were proved on {found['date']} by {found['toolchain']}{other}", not is_other
