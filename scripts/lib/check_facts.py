"""Says whether what docs/PROOF.md claims has contracts and wrong bodies.

Each heading of its part "Proved" names a fact. Each edit, crates/CRATE/must-fail/X.edit or one of must-not-compile/, begins with
a line '# protects: FACT', and none stands elsewhere, where nobody tries it. A fact with a table is protected by one of the
strongest wrong bodies, those of must-fail/ with a line '# strongest', and a fact without one by any edit. Each of the strongest
says in a line '# at: GOAL' where it is refused, or, of a definition, by '# refused: FUNCTION', since the test would else try its
function as it stands too. A row of a table begins with the functions, types or traits whose contracts say it: they stand in the
sources of the crates that end the row. A contract cites each name in its column "Definition", itself or by other definitions. One is
counted for each fact.
"""
import glob
import os
import re
import sys

from edits import PROGRAMS, STRONGEST, WRONG_BODIES, edits_of
from tree import TOP, text_of

PARTS = (WRONG_BODIES, PROGRAMS)
# Headings of the part that are no facts.
BESIDE = ("Safety", "Wrong bodies")
# A clause of a contract, a definition of a specification, and a name in one.
CLAUSE = re.compile(r"(?ms)^ *(?:pub )?(?:ensures|requires|ghost(?! use))\b.*?\}[;,]?$")
DEFINITION = re.compile(r"(?ms)^ *(?:(?:abbrev|pub|record|data) )+([\w']+)(.*?)(?=^ *(?:abbrev|pub|record|data) |\Z)")
NAME = re.compile(r"[\w']+")


def facts():
    """Returns the text of each fact, by its name."""
    proved = text_of(f"{TOP}/docs/PROOF.md").partition("\n## Proved\n")[2].partition("\n## ")[0]
    parts = re.findall(r"(?ms)^### ([^\n]+)\n(.*?)(?=^### |\Z)", proved)
    return {name: text for name, text in parts if name not in BESIDE}


def edits():
    """Returns all edits."""
    return [it for part in PARTS for it in edits_of(part)]


def fact_of(edit):
    """Returns the name of the fact that an edit protects, or None."""
    first = re.fullmatch(r"# protects: (.+)", edit.lines[0]) if edit.lines else None
    return first and first[1]


def faults_of_edit(edit, said):
    if fact_of(edit) not in said:
        yield f"{edit.path}: its first line is no '# protects: FACT' of docs/PROOF.md"
    if any(re.match(r"#\W*strongest\b", it, re.I) and it != STRONGEST for it in edit.lines):
        yield f"{edit.path}: a line is nearly '{STRONGEST}'"
    if edit.is_strongest() and not any(re.match(r"# (at|refused): .", it) for it in edit.lines):
        yield f"{edit.path}: no line '# at: GOAL' or '# refused: FUNCTION' says where it is refused"


def faults_of_edits(said):
    tried = edits()
    found = {os.path.relpath(it, TOP) for it in glob.glob(f"{glob.escape(TOP)}/crates/**/*.edit", recursive=True)}
    yield from (f"{it}: it stands in no folder of edits" for it in sorted(found - {it.path for it in tried}))
    for it in tried:
        yield from faults_of_edit(it, said)
    protected, by_strongest = {fact_of(it) for it in tried}, {fact_of(it) for it in tried if it.is_strongest()}
    for name, text in said.items():
        if "\n|" in text and name not in by_strongest:
            yield f"{name}: no edit of /{WRONG_BODIES}/ with a line '{STRONGEST}' protects it"
        elif name not in protected:
            yield f"{name}: no edit of {' or '.join(f'/{it}/' for it in PARTS)} protects it"


def faults_of_row(cells, crates):
    """Returns which names of a row's first column no crate has, of those that the row names."""
    if len(cells) != 3:
        return [f"a row has {len(cells)} columns, not 3: {cells[0]}"]
    names = re.findall(r"`(\w+)`", cells[0])
    named = {*crates.intersection(names), *re.findall(r"`(\w+)/specs/", cells[2])}
    paths = [path for it in named for path in glob.glob(f"{TOP}/crates/{it}/src/**/*.rt", recursive=True)]
    words = set(re.findall(r"\w+", "".join(text_of(it) for it in paths))) | named
    return [f"{', '.join(sorted(named))}: no {it}" for it in names if it not in words]


def faults_of_rows(said):
    crates = set(os.listdir(f"{TOP}/crates"))
    for fact, text in said.items():
        for row in re.findall(r"(?m)^\| (.*`.*) \|$", text):
            yield from (f"docs/PROOF.md: {fact}: {it}" for it in faults_of_row(row.split(" | "), crates))


def sources_of(folder, ending):
    """Returns the text of each file of all crates that is in such a folder and ends so."""
    return map(text_of, glob.glob(f"{glob.escape(TOP)}/crates/*/{folder}/**/*{ending}", recursive=True))


def cited():
    """Returns the names that contracts cite, themselves or by definitions."""
    definitions, found = {}, set()
    for name, text in (it for source in sources_of("specs", ".antt") for it in DEFINITION.findall(re.sub("--.*", "", source))):
        definitions.setdefault(name, set()).update(NAME.findall(text))
    new = {name for source in sources_of("src", ".rt") for clause in CLAUSE.findall(source) for name in NAME.findall(clause)}
    while new:
        found |= new
        new = {it for name in new for it in definitions.get(name, ())} - found
    return found


def faults_of_definitions(said):
    known = cited()
    for fact, text in said.items():
        head, *rows = [it.split("|") for it in re.findall(r"(?m)^\|.*", text)] or [[]]
        at = head.index(" Definition ") if rows else 0
        names = [name for row in rows for name in re.findall(r"`([\w']+)`", row[at])]
        yield from (f"docs/PROOF.md: {fact}: no contract cites {it}, nor a definition that one cites" for it in names if it not in known)


def print_map(asked):
    """Prints the wrong bodies of these facts, or of each."""
    known = list(facts())
    unknown = [it for it in asked if it not in known]
    if unknown:
        sys.exit(f"check-docs: no such fact: {', '.join(unknown)}; there are {', '.join(known)}")
    for name in asked or known:
        print(f"{name}", *(f"  {it.path}" for it in edits() if fact_of(it) == name), sep="\n")


def check():
    """Prints what is wrong, and returns how many passed and failed."""
    said = facts()
    faults = [*faults_of_edits(said), *faults_of_rows(said), *faults_of_definitions(said)]
    for it in faults:
        print(f"FAILED {it}")
    return max(len(said) - len(faults), 0), len(faults)
