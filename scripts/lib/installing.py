"""Installs the library for programs in C, C++ and Rust below a folder: what a package has. Or takes it away."""
import os
import shutil
import sys
import tempfile

import packing
from tree import text_of


def read(words, usage):
    """Returns the words by their names, and those for the archive."""
    named, rest = {}, list(words)
    while len(rest) > 1 and rest[0] in ("--prefix", "--libdir"):
        name, named[name], *rest = rest
    libdir = os.path.normpath(named.get("--libdir", "lib"))
    well = "--prefix" in named and not os.path.isabs(libdir) and not libdir.startswith("..")
    if not well or not (rest == ["--uninstall"] or packing.names_library(rest)):
        packing.usage(usage, words)
    prefix, destdir = os.path.abspath(named["--prefix"]), os.environ.get("DESTDIR", "")
    return packing.Place(prefix, libdir, os.path.abspath(destdir) if destdir else ""), rest


def install(place, words):
    """Lays all out in a room of its own, and copies what is there: so that the list of it has nothing else."""
    library = packing.library_of(words)
    with tempfile.TemporaryDirectory() as room:
        laid = packing.Place(place.prefix, place.libdir, room)
        version = packing.lay_out(library, laid)
        files = [*packing.files_below(laid.root()), packing.INSTALLED]
        packing.write(f"{laid.root()}/{packing.INSTALLED}", "".join(f"{it}\n" for it in sorted(files)))
        for file in files:
            target = f"{place.root()}/{file}"
            os.makedirs(os.path.dirname(target), exist_ok=True)
            if os.path.lexists(target):
                os.remove(target)
            shutil.copy2(f"{laid.root()}/{file}", target, follow_symlinks=False)
    print(f"flatpq {version} is installed below {place.prefix}")


def uninstall(place):
    """Takes away what an installation has brought."""
    listed = f"{place.root()}/{packing.INSTALLED}"
    if not os.path.exists(listed):
        sys.exit(f"package: {listed} is not there: nothing is taken away")
    files = text_of(listed).splitlines()
    for file in files:
        if os.path.lexists(f"{place.root()}/{file}"):
            os.remove(f"{place.root()}/{file}")
    folders = {os.path.dirname(it) for it in files}
    for folder in list(folders):
        while folder := os.path.dirname(folder):
            folders.add(folder)
    for folder in sorted(folders, key=len, reverse=True):
        path = f"{place.root()}/{folder}"
        if folder and os.path.isdir(path) and not os.listdir(path):
            os.rmdir(path)
    print(f"flatpq is taken away from below {place.prefix}")


def main(words, usage):
    place, rest = read(words, usage)
    if rest == ["--uninstall"]:
        uninstall(place)
    else:
        install(place, rest)
