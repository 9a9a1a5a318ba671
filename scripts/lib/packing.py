"""Lays out what a program in C, C++ or Rust needs of the library, as an installation has it."""
import glob
import hashlib
import os
import re
import shutil
import subprocess
import sys
from dataclasses import dataclass

import joining
import sources
from crate_list import with_below
from tree import TOP, text_of

PACKAGE, RUST, EXAMPLES = f"{TOP}/bindings/package", f"{TOP}/bindings/rust", f"{TOP}/examples"
# The list of all that was installed, from the prefix on.
INSTALLED = "share/flatpq/installed"


@dataclass
class Place:
    """Where the whole goes: the prefix as its files tell it, the folder of the libraries below it, and the folder that it is
    written below first, as packagers have it."""

    prefix: str
    libdir: str = "lib"
    destdir: str = ""

    def root(self):
        return f"{self.destdir}{self.prefix}"

    def up(self, folder):
        """Returns the way from a folder below the libraries' to the prefix."""
        return os.path.relpath("/", f"/{self.libdir}/{folder}")


def write(file, text):
    os.makedirs(os.path.dirname(file), exist_ok=True)
    with open(file, "w", encoding="utf-8") as it:
        it.write(text)


def copy(file, into):
    os.makedirs(into, exist_ok=True)
    shutil.copy(file, into)


def version():
    """Returns the version of the header, as three texts. It is the crate's too."""
    numbers = joining.version()
    if f'\nversion = "{".".join(numbers)}"\n' not in text_of(f"{RUST}/Cargo.toml"):
        raise SystemExit("bindings/rust/Cargo.toml has another version than include/flatpq.h")
    return numbers


def interface():
    """Returns the major and minor version of the recorded interface, and its lines."""
    number, *lines = text_of(f"{PACKAGE}/interface").splitlines()
    return number, lines


def interface_of(header):
    """Returns what a program that is compiled by the header takes for granted of the library: calls, layouts, and numbers."""
    plain = joining.plain(header)
    layouts = re.findall(r"typedef (struct pq_\w+ \{[^{}]*\})", plain)
    numbers = re.findall(r"\bPQ_\w+ = \d+", plain)
    defined = re.findall(r"(?m)^#define (PQ_(?!VERSION)\w+ \w+)$", header)
    return [*joining.declarations(header).values(), *layouts, *numbers, *defined]


@dataclass
class Library:
    """The archive, and what is known of how it was made: nothing of one that comes from elsewhere."""

    file: str
    known: dict


def library_of(words):
    """Returns the library that the words name, by --library FILE, or the one that scripts/build library makes by them."""
    if words[:1] == ["--library"] and len(words) == 2:
        return Library(os.path.realpath(words[1]), {})
    did = subprocess.run([f"{TOP}/scripts/build", "library", *words], stdin=subprocess.DEVNULL, stdout=subprocess.PIPE, text=True)
    if did.returncode:
        raise SystemExit("the library was not built")
    file = did.stdout.strip()
    return Library(file, sources.recorded(f"{os.path.dirname(file)}/core.o.told"))


def names_library(words):
    """Returns whether these are words for library_of."""
    return words in ([], ["--prove"]) or (len(words) == 2 and words[0] == "--library")


def proof_of(known):
    """Returns the sentence that says whether the core was proved."""
    if not known:
        return "Nothing is known of how its core was made, nor whether it was proved."
    if known["core"] == "proved":
        return f"Its core was proved on {known['date']} by {known['toolchain']}."
    return f"Its core was not proved where it was built: {sources.elsewhere()[0]}. It is {known['core']}."


def filled(name, words):
    """Returns a file of bindings/package, with the words in place of their names."""
    return re.sub(r"@(\w+)@", lambda it: words[it[1]], text_of(f"{PACKAGE}/{name}"))


def words_of(library, place):
    """Returns the words that stand in place of their names."""
    major, minor, patch = version()
    with open(library.file, "rb") as it:
        sha256 = hashlib.sha256(it.read()).hexdigest()
    record = {"crates": ", ".join(with_below(["queue_c"])), **library.known, "sha256 of libflatpq.a": sha256}
    return {
        "VERSION": f"{major}.{minor}.{patch}",
        "MAJOR": major,
        "MINOR": minor,
        "SONAME": joining.soname(),
        # pkg-config wants a space in a path escaped, and does so itself with that of its file.
        "PREFIX": place.prefix.replace(" ", "\\ ") or f"${{pcfiledir}}/{place.up('pkgconfig')}",
        "LIBDIR": place.libdir,
        "UP": place.up("cmake/flatpq"),
        "PROOF": proof_of(library.known),
        "RECORD": "\n".join(f"{name}: {it}" for name, it in record.items() if name != "core"),
    }


def lay_out_crate(library, into):
    """Lays out the crate for Rust with the archive in it, so that a copy of the folder is enough, also a vendored one."""
    for name in ("Cargo.lock", "build.rs"):
        copy(f"{RUST}/{name}", into)
    # In a crate of its own the examples need no path.
    write(f"{into}/Cargo.toml", text_of(f"{RUST}/Cargo.toml").split("\n[[example]]")[0])
    write(f"{into}/.cargo-checksum.json", '{"files":{}}\n')
    for file in glob.glob(f"{RUST}/src/*.rs"):
        copy(file, f"{into}/src")
    for file in glob.glob(f"{EXAMPLES}/rust/*.rs"):
        copy(file, f"{into}/examples")
    copy(library, f"{into}/lib")


def lay_out(library, place):
    """Lays out the whole at its place, and returns the version."""
    words, root = words_of(library, place), place.root()
    libraries = f"{root}/{place.libdir}"
    for file in [joining.HEADER, *glob.glob(f"{TOP}/bindings/cpp/*.hpp")]:
        copy(file, f"{root}/include")
    copy(library.file, libraries)
    joining.share(library.file, libraries)
    write(f"{libraries}/pkgconfig/flatpq.pc", filled("flatpq.pc", words))
    for name in ("flatpqConfig.cmake", "flatpqConfigVersion.cmake"):
        write(f"{libraries}/cmake/flatpq/{name}", filled(name, words))
    for file in glob.glob(f"{EXAMPLES}/c*/*"):
        copy(file, f"{root}/share/flatpq/examples/{os.path.basename(os.path.dirname(file))}")
    write(f"{root}/share/flatpq/examples/CMakeLists.txt", filled("CMakeLists.txt", words))
    lay_out_crate(library.file, f"{root}/share/flatpq/rust")
    copy(f"{TOP}/bindings/python/flatpq.py", f"{root}/share/flatpq/python")
    for file in (f"{TOP}/docs/GUIDE.md", f"{TOP}/CHANGELOG.md"):
        copy(file, f"{root}/share/doc/flatpq")
    for name in ("README.md", "PROVED"):
        write(f"{root}/share/doc/flatpq/{name}", filled(name, words))
    return words["VERSION"]


def files_below(root):
    """Returns the files and links below a folder, from it on, sorted."""
    found = [os.path.join(folder, name) for folder, _, names in os.walk(root) for name in names]
    return sorted(os.path.relpath(it, root) for it in found)


def usage(text, words):
    """Prints how a script is used, and ends it."""
    print(text, end="")
    sys.exit(0 if words in (["-h"], ["--help"]) else 2)
