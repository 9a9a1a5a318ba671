"""The hints `#[cold]` and `#[inline(..)]` of the sources, as attributes of the functions of an LLVM module, as a proved crate's has them.

They change how long a call takes, and never what it does. So a hint whose function isn't found is passed over: most of these are of
functions that no call reaches."""
import glob
import os
import re
from collections import defaultdict

from tree import text_of

ATTRIBUTES = {"cold": "cold", "inline": "inlinehint", "inline(always)": "alwaysinline", "inline(never)": "noinline"}
COMMENT, GENERICS = re.compile(r"(?m)//.*$"), re.compile(r"<[^<>]*>")
# The head of a block of functions, or a hint, and the function after it. Sources are laid out by rt fmt.
ITEM = re.compile(r"(?ms)^(?:(?:pub(?:\(\w+\))? |unsafe )*(impl|trait)\b([^;{]*)\{|( *)#\[(cold|inline(?:\(\w+\))?)\]$(?=.*?\bfn (\w+)))")
# A function of the module: its name, without the types that a generic one is made for, and where its attributes stand.
DEFINED = re.compile(r'(?m)^(define [^@\n]*@"([^"<]+?)(?:::<[^"]*)?"\(.*\)) (#\d+ \{)$')


def block_path(kind, head, crate, module):
    """Returns a pattern of the path of the functions in a block. It ends in the names of the type, the trait and the trait's arguments. That of a
    type's own functions is where the type is, and of others where the block is."""
    head, count = head.replace("->", ""), 1
    while count:
        head, count = GENERICS.subn("", head)
    names = [re.escape(it.strip().split("::")[-1]) for it in re.split(r"\bwhere\b", head)[0].replace("[T]", "slice+T").split(" for ")]
    if kind == "impl" and len(names) == 1:
        return rf"{crate}::(?:\w+::)*{names[0]}"
    return rf"{module}::{''.join(reversed(names))}\w*"


def hints_of(crate, folder):
    """Yields of each hint in the sources of a crate a pattern of the path of its function, the function's name, and the attribute."""
    for file in glob.glob(f"{folder}/**/*.rt", recursive=True):
        path = os.path.relpath(file, folder).removesuffix(".rt").removesuffix("/mod")
        module = block = "::".join([crate, *path.split("/")]).removesuffix("::lib")
        for kind, head, indent, hint, function in ITEM.findall(COMMENT.sub("", text_of(file))):
            if kind:
                block = block_path(kind, head, crate, module)
            else:
                yield block if indent else module, function, ATTRIBUTES[hint]


def with_hints(text, tops):
    """Returns the text of a module with the attributes that its functions have in the sources: each crate's folder is below one of these."""
    hints = defaultdict(list)
    for crate in {name.partition("::")[0] for _, name, _ in DEFINED.findall(text)}:
        for path, function, attribute in [it for top in tops for it in hints_of(crate, f"{top}/{crate}/src")]:
            hints[function].append((re.compile(path), attribute))

    def with_attributes(defined):
        path, _, function = defined[2].rpartition("::")
        found = [attribute for pattern, attribute in hints.get(function, ()) if pattern.fullmatch(path)]
        return " ".join([defined[1], *found, defined[3]])

    return DEFINED.sub(with_attributes, text)
