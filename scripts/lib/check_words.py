"""Says whether the pages, headers and public comments that users read have none of the words of REFUSED: those that a reader of the field
takes for something else, or looks up in no dictionary. Names in code font, and blocks of code, may have them. One is counted for each file.
"""
import glob
import os
import re

from tree import TOP, text_of

# Each with what stands in its place.
REFUSED = {
    r"in vain": "without finding an item, or without success",
    r"at it": "has the lock",
    r"whoever": "the thread that",
    r"comers?": "thread, or member",
    r"seats?": "member",
    r"(?:is|are|was|were|been) told": "gets, or learns",
    r"tells?|telling": "returns, says",
    r"least": "peek, or smallest",
    r"books?": "heap and journal",
    r"newcomers?": "thread that joins",
    r"mails?": "request slot",
    r"pens?": "member",
    r"desks?": "request slots and lock",
    r"testif(?:y|ies)|testimon(?:y|ies)": "a snapshot of a member's calls",
}
PAGES = ("README.md", "CHANGELOG.md", "docs/GUIDE.md", "docs/PERFORMANCE.md", "docs/PROGRAM.md", "bindings/README.md", "bindings/package/README.md")
SOURCES = ("include/*.h", "bindings/cpp/*.hpp", "bindings/rust/src/*.rs")


def prose_of_page(text):
    """Returns a page with a blank in place of each block of code and each name in code font."""
    text = re.sub(r"(?ms)^```.*?^```$", lambda it: "\n" * it[0].count("\n"), text)
    text = re.sub(r"(?m)^    .*$", "", text)
    return re.sub(r"`[^`]*`", "", text)


def prose_of_source(text):
    """Returns the comments of a source, in their lines, without names in code font."""
    pieces = re.split(r"(/\*.*?\*/|//[^\n]*)", text, flags=re.S)
    comments = [it if at % 2 else "\n" * it.count("\n") for at, it in enumerate(pieces)]
    return re.sub(r"`[^`\n]*`", "", "".join(comments))


def faults_of(prose):
    """Returns the words of this prose that are refused, each with its line. 'At least' is plain."""
    prose = re.sub(r"(?i)\bat([\s/*]+)least\b", r"\1", prose)
    for pattern, better in REFUSED.items():
        spaced = pattern.replace(" ", r"[\s/*]+")
        for found in re.finditer(rf"(?i)\b(?:{spaced})\b", prose):
            yield f"{prose.count(chr(10), 0, found.start()) + 1}: '{found[0]}'; it may be: {better}"


def check():
    """Prints what is wrong, and returns how many passed and failed."""
    prose = {it: prose_of_page(text_of(f"{TOP}/{it}")) for it in PAGES}
    sources = sorted(file for it in SOURCES for file in glob.glob(f"{TOP}/{it}"))
    prose |= {os.path.relpath(it, TOP): prose_of_source(text_of(it)) for it in sources}
    faults = {name: list(faults_of(text)) for name, text in prose.items()}
    for name, wrong in faults.items():
        for it in wrong:
            print(f"FAILED {name}:{it}")
    failed = sum(1 for it in faults.values() if it)
    return len(faults) - failed, failed
