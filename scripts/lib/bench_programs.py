"""The programs that scripts/trials bench runs, and how they are built: queue_bench, and those of scripts/peers."""
import glob
import os
import re
import shutil
import subprocess
import sys
from dataclasses import dataclass

from clients import archive
from tree import TOP

CRATE = f"{TOP}/crates/queue_bench"
PEERS = f"{TOP}/scripts/peers"


@dataclass(frozen=True)
class Program:
    """A program in another language: what builds it, behind which come its file and its sources; its sources; what it links; a
    header that has to be there, with the package that has it; whether it links the crate for Rust; its part in Rust; and the crate
    of Debian's registry by which this part is built."""

    builds: tuple
    sources: tuple
    links: tuple = ()
    header: str = ""
    package: str = ""
    has_crate: bool = False
    rust_part: str = ""
    registered: str = ""


ARCHIVE = "libflatpq.a"
CPP = ("c++", "-std=c++17", "-O2", "-pthread", f"-I{TOP}/include", f"-I{TOP}/bindings/cpp", "-o")
# (in one unit: else a loop in a module of its own and the calls that it makes may not come together)
RUST = ("rustc", "-O", "-C", "codegen-units=1", "--edition", "2021")
# Where Debian's packages keep the sources of crates.
REGISTRY = "/usr/share/cargo/registry"
TBB = ("-ltbb",), "oneapi/tbb/concurrent_priority_queue.h", "oneTBB (libtbb-dev)"
PROGRAMS = {
    "c_queue": Program(("cc", "-std=c99", "-O2", "-pthread", f"-I{TOP}/include", "-o"), ("c_queue.c", ARCHIVE)),
    "cpp_mutex": Program(CPP, ("cpp_mutex.cpp",)),
    "cpp_tasks": Program(CPP, ("cpp_tasks.cpp", ARCHIVE)),
    "rust_mutex": Program((*RUST, "-o"), ("rust_mutex.rs",)),
    "rust_tasks": Program((*RUST, "-o"), ("rust_tasks.rs",), has_crate=True),
    "tbb_queue": Program(CPP, ("tbb_queue.cpp",), *TBB),
    "light": Program(CPP, ("light.cpp", ARCHIVE)),
    "light_rust": Program(CPP, ("light_rust.cpp",), rust_part="light_rust.rs"),
    "light_parked": Program(CPP, ("light_rust.cpp",), rust_part="light_rust.rs", registered="parking_lot"),
    "light_tbb": Program(CPP, ("light_tbb.cpp",), *TBB),
    "hold": Program(CPP, ("hold.cpp", ARCHIVE)),
    "batches": Program(CPP, ("batches.cpp", ARCHIVE)),
    "pipeline": Program(CPP, ("pipeline.cpp", ARCHIVE)),
    "pipeline_channel": Program((*RUST, "-o"), ("pipeline.rs",), registered="crossbeam-channel"),
    "services": Program(CPP, ("services.cpp", ARCHIVE)),
    "cancels": Program(CPP, ("cancels.cpp", ARCHIVE)),
    "workers": Program(CPP, ("workers.cpp", ARCHIVE)),
    "simulation": Program(CPP, ("simulation.cpp", ARCHIVE)),
    "timers": Program(CPP, ("timers.cpp", ARCHIVE)),
    "dijkstra": Program(CPP, ("dijkstra.cpp", ARCHIVE)),
    "astar": Program(CPP, ("astar.cpp", ARCHIVE)),
}


def stop(why):
    sys.exit(f"bench: {why}")


def queue_bench_of(asked):
    """Returns the proved program, which is proved and built where that is not done, and makes a run of one push."""
    if asked.program:
        return os.path.realpath(asked.program)
    did = subprocess.run(["rt", "run", "--", "array", "1", "1", "0"], cwd=CRATE, capture_output=True, text=True)
    if not re.fullmatch(r"array,1,1,\d+,audit ok\n", did.stdout):
        stop("queue_bench was not built: rt run in crates/queue_bench says why")
    return f"{CRATE}/out/queue_bench"


def lacking(program):
    """Returns what isn't there of what builds a program, if anything."""
    for it in (program.builds[0], *(RUST[:1] if program.rust_part else [])):
        if not shutil.which(it):
            return it
    if program.registered and not (shutil.which("cargo") and glob.glob(f"{REGISTRY}/{program.registered}-*")):
        return f"{program.registered} (librust-{program.registered.replace('_', '-')}-dev)"
    if not program.header:
        return ""
    reads = [program.builds[0], "-std=c++17", "-E", "-x", "c++", "-"]
    did = subprocess.run(reads, input=f"#include <{program.header}>\n", capture_output=True, text=True)
    return program.package if did.returncode else ""


def built(what, command):
    """Builds something by this command."""
    did = subprocess.run(command, capture_output=True, text=True)
    if did.returncode:
        stop(f"{what} was not built: {did.stderr.strip()}")


def built_crate(folder, library):
    """Builds the crate for Rust over this archive, if that isn't done: the words by which rustc links it."""
    to, source = f"{folder}/libflatpq.rlib", f"{TOP}/bindings/rust/src/lib.rs"
    links = ["-L", f"native={os.path.dirname(os.path.realpath(library))}", "-l", "static=flatpq"]
    if not os.path.exists(to):
        built(source, [*RUST, "--crate-type", "rlib", "--crate-name", "flatpq", *links, "-o", to, source])
    return ["--extern", f"flatpq={to}"]


def built_registered(folder, name):
    """Builds a crate of Debian's registry and what it needs: the words by which rustc links it, and chooses it."""
    room, crate = f"{folder}/{name}", name.replace("-", "_")
    os.makedirs(f"{room}/src", exist_ok=True)
    texts = {
        "Cargo.toml": f'[package]\nname = "registered"\nversion = "0.0.0"\n[dependencies]\n{name} = "*"\n[workspace]\n',
        "config.toml": f'[source.crates-io]\nreplace-with = "debian"\n[source.debian]\ndirectory = "{REGISTRY}"\n',
        "src/lib.rs": "",
    }
    for file, text in texts.items():
        with open(f"{room}/{file}", "w", encoding="utf-8") as it:
            it.write(text)
    words = ["--release", "--offline", "--manifest-path", f"{room}/Cargo.toml", "--config", f"{room}/config.toml"]
    built(name, ["cargo", "build", "--quiet", *words, "--target-dir", f"{room}/target"])
    below = f"{room}/target/release/deps"
    [library] = glob.glob(f"{below}/lib{crate}-*.rlib")
    return ["--cfg", f"with_{crate}", "-L", f"dependency={below}", "--extern", f"{crate}={library}"]


def built_part(folder, program, library):
    """Builds the part in Rust of a program in C++, with the crate: the archive of both."""
    name = program.rust_part
    to, source = f"{folder}/lib{name[:-3]}_{program.registered or 'std'}.a", f"{PEERS}/{name}"
    others = built_registered(folder, program.registered) if program.registered else []
    built(source, [*RUST, "--crate-type", "staticlib", *others, *built_crate(folder, library), "-o", to, source])
    return to


def built_other(folder, name, asked):
    """Builds this program in another language, where what builds it is there: the words that run it."""
    program = PROGRAMS[name]
    if lacks := lacking(program):
        print(f"bench: no {lacks}, so no rows of {name}", file=sys.stderr)
        return None
    files = [asked.library or archive() if it == ARCHIVE else f"{PEERS}/{it}" for it in program.sources]
    to = f"{folder}/{name}"
    links = [*program.links, *(built_crate(folder, asked.library or archive()) if program.has_crate else [])]
    if program.rust_part:
        links.append(built_part(folder, program, asked.library or archive()))
    elif program.registered:
        links += built_registered(folder, program.registered)
    built(files[0], [*program.builds, to, *files, *links])
    return [to]


def build(folder, names, asked):
    """Builds these programs: the words that run each."""
    programs = {it: [queue_bench_of(asked)] if it == "queue_bench" else built_other(folder, it, asked) for it in sorted(names)}
    return {name: words for name, words in programs.items() if words}
