"""Says whether the files that the documents name are there, and have the names that stand behind them, and whether their links lead
somewhere.

A file is named in backquotes, from the top or below crates/, as in `pq_types/specs/Item.antt`; after a colon may come names in it, as in
`pq_types/specs/Item.antt`: `IsItem`, `item_word`. A link leads to a file, and after a # to a heading of it. One is counted for each document.
"""
import glob
import os
import re

from tree import TOP, text_of

CRATES = "|".join(sorted(os.listdir(f"{TOP}/crates")))
PLACES = f"(?:{CRATES})/(?:src|specs|proofs|must-fail)|crates|docs|scripts|tests|examples|include|library|bindings"
NAMED = re.compile(rf"`((?:{PLACES})/[\w./-]*)`((?::|,| and|\s|`\w+`)*)")


def found(path):
    """Returns the file or folder of this name, from the top or below crates/."""
    tried = [f"{TOP}/{path}", f"{TOP}/crates/{path}"]
    return next((it for it in tried if os.path.exists(it)), None)


def headings_of(text):
    """Returns the names by which links lead to the headings of a document."""
    return {re.sub(r"[^\w -]", "", it.lower()).replace(" ", "-") for it in re.findall(r"(?m)^#+ (.*)$", text)}


def faults_of_links(document, text):
    """Returns which links of a document lead nowhere."""
    faults = []
    for path, heading in re.findall(r"\]\((?!https?:)([^)#\s]*)#?([^)\s]*)\)", text):
        file = os.path.join(os.path.dirname(document), path) if path else document
        if not os.path.exists(file):
            faults.append(f"{path} is not there")
        elif heading and heading not in headings_of(text_of(file)):
            faults.append(f"{path} has no heading {heading}")
    return faults


def faults_of(text):
    """Returns what is wrong with the files that a document names."""
    faults = []
    for path, behind in NAMED.findall(text):
        file = found(path)
        names = re.findall(r"`(\w+)`", behind) if behind.startswith(":") else []
        if not file:
            faults.append(f"{path} is not there")
        elif names and os.path.isfile(file):
            words = set(re.findall(r"\w+", text_of(file)))
            faults += [f"{path} has no {it}" for it in names if it not in words]
    return faults


def check():
    """Prints what is wrong, and returns how many passed and failed."""
    files = [f"{TOP}/README.md", f"{TOP}/bindings/README.md", *sorted(glob.glob(f"{TOP}/docs/*.md"))]
    texts = {it: text_of(it) for it in files}
    faults = {it: faults_of(text) + faults_of_links(it, text) for it, text in texts.items()}
    for file, wrong in faults.items():
        for it in wrong:
            print(f"FAILED {os.path.relpath(file, TOP)}: {it}")
    failed = sum(1 for it in faults.values() if it)
    return len(faults) - failed, failed
