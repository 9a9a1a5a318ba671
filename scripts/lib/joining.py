"""Makes the library of the proved core and of library/*.c: libflatpq.a, and the shared object libflatpq.so.

The core is one object that shows the calls pq_core_.. alone. Of the library only the functions that include/flatpq.h declares are to be
seen: another library in the same program may have names as those that stay inside."""
import glob
import os
import re
import subprocess
import tempfile
from concurrent.futures import ThreadPoolExecutor

from tree import TOP, text_of

HEADER = f"{TOP}/include/flatpq.h"
ARCHIVE, SHARED = "libflatpq.a", "libflatpq.so"
CORE = "pq_core_*"
# Of what a tool says where it fails so many lines are shown.
MOST_LINES = 40
# (two numbers that were stored one by one are not loaded as one: the processor would wait for both stores, some 4 ns of each call)
COMPILES = [os.environ.get("CC", "cc"), "-std=c11", "-O2", "-fno-tree-slp-vectorize", "-fPIC", "-fvisibility=hidden", "-pthread"]
COMPILES += ["-Wall", "-Wextra", "-Werror"]
# A thread that ends after dlclose still gives its members back, so the shared object stays.
SHARES = ["-pthread", "-Wl,-z,defs", "-Wl,-z,relro", "-Wl,-z,now", "-Wl,-z,nodelete"]


class NotJoined(Exception):
    """Why the library was not made."""


def run(words, **how):
    """Runs a tool, which has to do what it is asked."""
    how = {"stdin": subprocess.DEVNULL, "stdout": subprocess.PIPE, "stderr": subprocess.STDOUT, **how}
    did = subprocess.run(words, text=True, errors="replace", **how)
    if did.returncode:
        lines = did.stdout.rstrip().splitlines()
        raise NotJoined("\n".join([f"{words[0]} failed:", *lines[:MOST_LINES], *["..."] * (len(lines) > MOST_LINES)]))


def plain(text):
    """Returns a header's text without comments and lines of the preprocessor, with single spaces."""
    return re.sub(r"\s+", " ", re.sub(r"(?m)^#(.*\\\n)*.*$", "", re.sub(r"(?s)/\*.*?\*/", "", text)))


def declarations(text):
    """Returns the declarations of functions in a header, each by its name."""
    return {name: it for it, name in re.findall(r"((?:const )?\w+ \*?(pq_\w+)\((?:[^()]|\([^()]*\))*\));", plain(text))}


def exports():
    """Returns the names that the library shows."""
    return sorted(declarations(text_of(HEADER)))


def version():
    """Returns the version of the header, as three texts."""
    return [re.search(rf"#define PQ_VERSION_{it} (\d+)\n", text_of(HEADER))[1] for it in ("MAJOR", "MINOR", "PATCH")]


def soname():
    """Returns the name by which programs find the shared object: versions of the same major and minor number are one."""
    return f"{SHARED}.{'.'.join(version()[:2])}"


def join(parts, names, to):
    """Makes one object of archives and objects, which shows these names alone."""
    with tempfile.TemporaryDirectory() as room:
        with open(f"{room}/names", "w", encoding="utf-8") as it:
            it.writelines(f"{name}\n" for name in names)
        run(["ld", "-r", "-o", f"{room}/whole.o", "--whole-archive", *parts])
        run(["objcopy", "--wildcard", f"--keep-global-symbols={room}/names", f"{room}/whole.o", to])


def join_core(parts, to):
    """Makes the core of its parts: the proved queue, and the calls by which it asks for memory."""
    join(parts, [CORE], to)


def compiled(room, compiles):
    """Compiles the C sources by these words, on all processors: the objects."""
    sources = sorted(glob.glob(f"{TOP}/library/*.c"))
    objects = [f"{room}/{os.path.basename(it)[:-2]}.o" for it in sources]
    with ThreadPoolExecutor(len(os.sched_getaffinity(0))) as pool:
        list(pool.map(lambda source, to: run([*compiles, f"-I{TOP}/include", "-c", source, "-o", to]), sources, objects))
    return objects


def share(archive, folder):
    """Makes the shared object of an archive in this folder, and the name by which the linker finds it."""
    target = f"{folder}/{soname()}"
    with tempfile.TemporaryDirectory() as room:
        with open(f"{room}/exports", "w", encoding="utf-8") as it:
            it.write(f"{{ global: {' '.join(f'{name};' for name in exports())} local: *; }};\n")
        links = [*SHARES, f"-Wl,-soname,{soname()}", f"-Wl,--version-script={room}/exports"]
        run([COMPILES[0], "-shared", "-o", f"{target}.new", *links, "-Wl,--whole-archive", archive, "-Wl,--no-whole-archive"])
    os.replace(f"{target}.new", target)
    if os.path.lexists(f"{folder}/{SHARED}"):
        os.remove(f"{folder}/{SHARED}")
    os.symlink(soname(), f"{folder}/{SHARED}")


def make_archive(core, more, folder, compiles=None):
    """Makes the archive of a core, and of further objects, in this folder, the C sources compiled by these words or as always."""
    with tempfile.TemporaryDirectory() as room:
        join([core, *more, *compiled(room, compiles or COMPILES)], exports(), f"{room}/flatpq.o")
        run(["ar", "rcD", f"{folder}/{ARCHIVE}", f"{room}/flatpq.o"])
    return f"{folder}/{ARCHIVE}"


def make(core, more, folder):
    """Makes the library of a core, and of further objects, in this folder: the archive, which is there last."""
    with tempfile.TemporaryDirectory() as room:
        make_archive(core, more, room)
        os.makedirs(folder, exist_ok=True)
        share(f"{room}/{ARCHIVE}", folder)
        with open(f"{room}/{ARCHIVE}", "rb") as made, open(f"{folder}/{ARCHIVE}.new", "wb") as it:
            it.write(made.read())
        os.replace(f"{folder}/{ARCHIVE}.new", f"{folder}/{ARCHIVE}")
    return f"{folder}/{ARCHIVE}"
