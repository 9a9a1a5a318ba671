"""The edits of the crates: wrong bodies, crates/CRATE/must-fail/NAME.edit, and programs that the compiler has to refuse, which
stand in must-not-compile/ in the same form.

A line 'file: src/lib.rt' names a file, and each pair of lines 'old: TEXT' and 'new: TEXT' behind it changes that. The other lines
say more of the edit, each behind words of its own, as '# protects: FACT'.
"""
import glob
import os
from dataclasses import dataclass

from tree import TOP, text_of

WRONG_BODIES, PROGRAMS = "must-fail", "must-not-compile"
# The line of a wrong body that is one of the strongest.
STRONGEST = "# strongest"


@dataclass(frozen=True)
class Edit:
    """An edit: where it stands, from the top, its lines, and its pairs of file, old text and new text."""

    path: str
    lines: tuple
    pairs: tuple

    def crate(self):
        return self.path.split("/")[1]

    def name(self):
        return os.path.basename(self.path).removesuffix(".edit")

    def is_strongest(self):
        """Whether it is one of the strongest wrong bodies."""
        return STRONGEST in self.lines and self.path.split("/")[2] == WRONG_BODIES

    def said(self, words):
        """Returns what each line says that begins with these words."""
        return [it[len(words) :].strip() for it in self.lines if it.startswith(words)]


def edits_of(folder, crate="*"):
    """Returns the edits in this folder of a crate, or of each."""
    return [read(it) for it in sorted(glob.glob(f"{glob.escape(TOP)}/crates/{crate}/{folder}/*.edit"))]


def read(path):
    lines, pairs = tuple(text_of(path).splitlines()), []
    file, old = None, None
    for line in lines:
        if line.startswith("file: "):
            file = line[6:].strip()
        elif line.startswith("old: "):
            old = line[5:]
        elif line.startswith("new:") and old is not None and file is not None:
            pairs.append((file, old, line[5:]))
            old = None
    return Edit(os.path.relpath(path, TOP), lines, tuple(pairs))


def edited(pairs, text_in):
    """Returns the text of each file that these pairs change, or None where an old text does not stand there once. What gives the
    text of a file, by its name, is handed in."""
    changed = {}
    for file, old, new in pairs:
        text = changed.get(file) or text_in(file)
        if text.count(old) != 1:
            return None
        changed[file] = text.replace(old, new)
    return changed
