"""Says whether each public call says what it does where it is defined: it has a doc comment.

A public call is a public method, a method of a public trait, or a public function of a public module or one that
lib.rt hands on. Laws run nothing, and count for none. Of the program they are the functions run_..., and of a static
library those that it exports. One is counted for each crate.
"""
import glob
import os
import re

from tree import TOP, text_of

WITHOUT_CALLS = {"desk_core", "test_aids", "readme_examples", "queue_bench"}


def calls_in(text, is_taken):
    """Returns the public calls of a source file, of whose functions and traits those with such a name count, each with whether it has
    a doc comment."""
    found, holder, is_trait, is_told = {}, None, False, False
    for line in text.splitlines():
        begun = re.match(r"(?:pub )?(impl|trait)(?:<.*?>)? (\w+)", line) or re.match(r"(impl)<.*> (\w+)<", line)
        if begun and line.endswith("{"):
            is_trait = begun[1] == "trait"
            is_hidden = is_trait and not (line.startswith("pub ") and is_taken(begun[2]))
            holder = None if re.search(r"\bfor\b", line) or is_hidden else begun[2]
        elif line.startswith("}"):
            holder = None
        method = re.match(r"    (pub )?fn (\w+)", line)
        function = re.match(r'pub (?:extern "C" )?fn (\w+)', line)
        if method and holder and (method[1] or is_trait):
            found[f"{holder}::{method[2]}"] = is_told
        elif function and is_taken(function[1]):
            found[function[1]] = is_told
        is_told = line.lstrip().startswith("///") or is_told and line.lstrip().startswith(("#[", "//"))
    return {name: it for name, it in found.items() if not name.startswith("law_")}


def is_static(crate):
    return re.search(rf"(?m)^{crate} .*\bstaticlib\b.*:", text_of(f"{TOP}/crates.txt"))


def calls_of(crate):
    """Returns the public calls of a crate, each with whether it has a doc comment."""
    root = f"{TOP}/crates/{crate}/src/lib.rt"
    files = glob.glob(f"{TOP}/crates/{crate}/src/*.rt")
    found = {}
    if is_static(crate) or not os.path.isfile(root):
        begins = "pq_" if is_static(crate) else "run_"
        for file in files:
            found |= calls_in(text_of(file), lambda name: name.startswith(begins))
        return {name: it for name, it in found.items() if "::" not in name}
    top = text_of(root)
    modules = {*re.findall(r"(?m)^pub mod (\w+);", top), "lib"}
    handed_on = {*re.findall(r"\w+", " ".join(re.findall(r"(?m)^pub use ([^;]*);", top)))}
    for file in files:
        module = os.path.basename(file).removesuffix(".rt")
        if module != "tests":
            found |= calls_in(text_of(file), lambda name, module=module: module in modules or name in handed_on)
    return found


def check():
    """Prints what is wrong, and returns how many passed and failed."""
    crates = [it for it in sorted(os.listdir(f"{TOP}/crates")) if it not in WITHOUT_CALLS]
    failed = 0
    for crate in crates:
        untold = sorted(name for name, is_told in calls_of(crate).items() if not is_told)
        if untold:
            failed += 1
            print(f"FAILED {crate}: public calls without a doc comment: {', '.join(untold)}")
    return len(crates) - failed, failed
