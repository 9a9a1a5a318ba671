"""Builds the library for programs in C, C++ and Rust, out/libflatpq.a and out/libflatpq.so, and prints where the archive is.

usage: scripts/build library [--prove]

The core becomes one object, out/core.o; what is known of it stands in out/core.o.told. A core that scripts/prove-all left, and that is as
the sources are, is taken; --prove has scripts/prove-all prove it first. Else it is built without a proof, in under a minute. It then has no
check at run time if PROVED names these sources and this toolchain, as a proved one has none. The C sources, library/*.c, are compiled and
joined to the core in a second.

Where the checkout can't be written, all goes into a folder of the user's cache, named by the sum of the sources. Of two runs at once one
builds. The status is 1 where nothing was built, and 3 where this toolchain isn't one that lets it be built without a proof.
"""
import contextlib
import os
import subprocess
import sys

sys.dont_write_bytecode = True
import joining
import making
import sources
import telling
from tree import TOP, text_of
from unproved import emptied, kit_folder
from unproved_core import CRATE, CoreBuild

PROVED = f"{TOP}/crates/{CRATE}/out/lib{CRATE}.a"
# What the record says of a core.
CHECKED, BARE, FROM_PROOF = "built with checks at run time", "built without checks at run time", "proved"


def commit():
    """Returns the line on the commit of the sources, where git knows it."""
    git = ["git", "-C", TOP]
    found = subprocess.run([*git, "rev-parse", "HEAD"], capture_output=True, text=True)
    if found.returncode:
        return ""
    changed = subprocess.run([*git, "diff", "--quiet", "HEAD", "--", "crates", "crates.txt"]).returncode
    return f"commit: {found.stdout.strip()}{', with changes' if changed else ''}\n"


def take_proved(core, teller):
    """Makes the core of what scripts/prove-all left."""
    told = f"core: {FROM_PROOF}\n{text_of(sources.record_of(PROVED))}{commit()}"
    told += f"trusted: the libraries of the toolchain as built there, and those below {CRATE} as the same run proved and built them\n"
    with emptied(f"{core}.room") as room:
        joining.join_core([PROVED, f"{kit_folder()}/c/liblibc_c.a"], f"{room}/core.o")
        making.placed(f"{room}/core.o", core, teller, told)


def build_core(kind, core, teller):
    """Makes the core without a proof."""
    kit_folder()
    told = f"core: {kind}\nsources: {sources.sum_of_sources()}\ntoolchain: {sources.toolchain()}\n{commit()}"
    making.built(lambda kit, room: CoreBuild(kit, room, kind == CHECKED), core, teller, told)


class Library:
    """The library at its place, and what is known of it."""

    def __init__(self, teller):
        self.teller, self.core = teller, making.place_of("core.o")[0]
        self.folder = os.path.dirname(self.core)
        self.archive = f"{self.folder}/{joining.ARCHIVE}"

    def known(self):
        """Returns the record of the core, or nothing where no core is as the sources are."""
        return sources.recorded(f"{self.core}.told") if making.place_of("core.o")[1] else {}

    def missing(self):
        """Returns the kind of core that has to be made, or nothing where one is there that is no worse."""
        kind = self.known().get("core")
        if kind == FROM_PROOF:
            return None
        best = FROM_PROOF if sources.is_proved(PROVED) else BARE if sources.elsewhere()[1] else CHECKED
        return None if kind == best else best

    def is_joined(self):
        """Returns whether the archive is as the core and the C sources are."""
        return sources.is_current(self.archive, sources.OF_LIBRARY) and os.stat(self.core).st_mtime <= os.stat(self.archive).st_mtime

    def make(self):
        """Makes what isn't there, where no other run does."""
        if not self.missing() and self.is_joined():
            return
        with making.alone(self.core, self.teller):
            kind = self.missing()
            if kind == FROM_PROOF:
                take_proved(self.core, self.teller)
            elif kind:
                build_core(kind, self.core, self.teller)
            if not self.is_joined():
                joining.make(self.core, [], self.folder)
                os.utime(self.archive, (self.teller.began, self.teller.began))

    def say(self):
        """Says in one line whether the library was proved."""
        known = self.known()
        if known["core"] == FROM_PROOF:
            text = f"proved here on {known['date']} by {known['toolchain']}"
        else:
            text = f"not proved here; {sources.elsewhere()[0]} (PROVED)"
            text += ", so it has checks at run time" if known["core"] == CHECKED else ""
            text += ": --prove does that"
        with contextlib.suppress(OSError):
            print(f"build: {text}", file=sys.stderr, flush=True)


def library(is_to_be_proved):
    """Builds the library, where it isn't there: its archive."""
    teller = telling.Teller("build", "library")
    if is_to_be_proved:
        making.proved(teller, CRATE, PROVED)
    it = Library(teller)
    it.make()
    it.say()
    return it.archive


def main(words):
    if words not in ([], ["--prove"]):
        print(__doc__, end="")
        return 0 if words in (["-h"], ["--help"]) else 2
    status = making.status_of("build", lambda: library(bool(words)))
    if status == 3:
        print("build: scripts/build library --prove proves it first, and builds it of that", file=sys.stderr)
    return status


if __name__ == "__main__":
    sys.exit(main(sys.argv[1:]))
