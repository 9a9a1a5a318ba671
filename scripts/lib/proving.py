"""The prover, over the libraries that rt ci or rt check left behind.

Behind rt ci the command rt check would prove every library again, so its words are asked of rt's own module."""
import os
import re
import subprocess
import sys

from tree import TOP

ERROR = re.compile(r"\berror\b(?:\[\w+\])?:")
STRAY_PROOF = re.compile(r"(?m)^\./proofs/\S+: error: `\w+` has no function `\S+` for this file to be the proof of: .*$")


class Toolchain:
    """The prover and the words by which it is called for each crate, over the libraries of the repository or of a copy of it."""

    def __init__(self, over=TOP):
        guide = subprocess.run(["rt", "doc"], capture_output=True, text=True, check=True).stdout.strip()
        sys.path.insert(0, f"{os.path.dirname(guide)}/bin")
        sys.dont_write_bytecode = True
        import rtlib

        self.rtlib = rtlib
        rtlib.guarded()
        self.over, self.crates = over, {}
        # Whether others come first where processors are scarce.
        self.gives_way = False

    def command(self, crate, functions, words=()):
        """Returns the command that checks these functions of a copy of a crate. Of an empty name it asks for none, and the compiler
        alone reads the crate."""
        if crate not in self.crates:
            self.crates[crate] = self.rtlib.Crate(f"{self.over}/crates/{crate}", self.over, {}).words(["--jobs", "1"], keeps=False)
        only = [word for it in dict.fromkeys(functions) for word in ("--only", it)]
        nice = ["nice"] if self.gives_way else []
        return [*nice, *self.rtlib.guarded(), self.rtlib.RATTLE, "check", *self.crates[crate], *only, *words]

    def refusal(self, crate, folder, words=()):
        """Has the compiler alone read a copy of a crate in this folder: what it says where it refuses it, else None. A proof whose
        function the compiler leaves out, as nothing that has a body calls it, is no refusal."""
        how = {"cwd": folder, "stdin": subprocess.DEVNULL, "stdout": subprocess.PIPE, "stderr": subprocess.STDOUT}
        ran = subprocess.run(self.command(crate, [""], words), text=True, errors="replace", **how)
        is_read = f"crate {crate}: modules loaded" in ran.stdout and not ERROR.search(STRAY_PROOF.sub("", ran.stdout))
        return ran.stdout if ran.returncode and not is_read else None

    def check(self, crate, folder, functions, words=()):
        """Checks these functions of a copy of a crate in this folder, and returns what was said."""
        how = {"cwd": folder, "stdin": subprocess.DEVNULL, "stdout": subprocess.PIPE, "stderr": subprocess.STDOUT}
        return subprocess.run(self.command(crate, functions, words), text=True, errors="replace", **how).stdout
