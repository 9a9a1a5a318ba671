"""The archive of the library, and the client of it that plays random schedules on running queues."""
import glob
import os
import shutil
import subprocess
import sys

import packing
from tree import TOP

CLIENT = f"{TOP}/tests/queue_stress"
COMPILER = os.environ.get("CC", "cc")
# clang's programs take half the time that those of gcc do.
SANITIZING = ("clang", "gcc")
COMPILES = ["-std=c99", "-O2", "-g1", "-pthread", "-Wall", "-Wextra", "-Werror", f"-I{TOP}/include"]
# The client sees the archive's requests for memory.
LINKS = ["-Wl,--wrap=malloc,--wrap=realloc"]


def archive(words=("--prove",)):
    """Returns the archive of the sources as they are, which is built where that is not done, by these words for scripts/build library."""
    return packing.library_of(list(words)).file


def queue_stress(library, folder):
    """Builds the client over this archive in a folder: its file."""
    program = f"{folder}/queue_stress"
    command = [COMPILER, *COMPILES, *LINKS, *sorted(glob.glob(f"{CLIENT}/*.c")), library, "-o", program]
    if subprocess.run(command, stdin=subprocess.DEVNULL, stdout=sys.stderr).returncode:
        sys.exit(f"{os.path.basename(sys.argv[0])}: queue_stress was not built")
    return program


def sanitized(library, folder, sanitizer):
    """Builds the client with this sanitizer, and the C sources of the library too, over the core beside this archive: its file, or None
    where the core isn't there, or no compiler makes a program so that runs here."""
    core, program = f"{os.path.dirname(library)}/core.o", f"{folder}/queue_stress-{sanitizer}"
    sources = sorted(glob.glob(f"{CLIENT}/*.c") + glob.glob(f"{TOP}/library/*.c"))
    for compiler in SANITIZING if os.path.exists(core) else ():
        if shutil.which(compiler):
            flags = [*COMPILES, "-std=c11", "-O1", f"-fsanitize={sanitizer}", "-fno-sanitize-recover=all"]
            built = subprocess.run([compiler, *flags, *LINKS, *sources, core, "-o", program], capture_output=True, stdin=subprocess.DEVNULL)
            if not built.returncode and not subprocess.run([program, "1", "0"], capture_output=True, stdin=subprocess.DEVNULL).returncode:
                return program
    return None
