"""The crates, as crates.txt lists them: of each a line 'NAME WORDS: NAMES', with those that it stands on."""
from tree import TOP, text_of


def lines():
    """Returns the line of each crate, in the order of crates.txt."""
    listed = [line for line in text_of(f"{TOP}/crates.txt").splitlines() if ":" in line.partition("#")[0]]
    return {line.partition(":")[0].split()[0]: line for line in listed}


def crates():
    """Returns each crate with the crates that its line names."""
    listed = lines()
    named = {name: line.partition(":")[2].partition("#")[0].split() for name, line in listed.items()}
    return {name: [it for it in words if it in listed] for name, words in named.items()}


def with_below(names):
    """Returns these crates and all that they stand on, in the order of crates.txt."""
    named, found, left = crates(), set(), list(names)
    while left:
        name = left.pop()
        left += named[name] if name not in found else []
        found.add(name)
    return [it for it in named if it in found]
