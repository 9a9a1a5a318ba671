"""The functions of a crate's sources, as their layout shows them: a function ends at the brace below its first line's indentation, and so
does an impl."""
import functools
import glob
import os
import re
from dataclasses import dataclass

from tree import TOP, text_of

FUNCTION = re.compile(r"( *)(?:pub(?:\([a-z]+\))? )?(?:const )?(?:unsafe )?(?:extern \"C\" )?fn (\w+)")
TYPE = re.compile(r"(?m)^(?:pub(?:\([a-z]+\))? )?(?:struct|enum) (\w+)")
# A type that has parameters and an impl that names none, which is of the types that they are by default.
GENERIC, PLAIN = re.compile(r"(?m)^(?:pub(?:\([a-z]+\))? )?(?:struct|enum) (\w+)<(?!')"), re.compile(r" *impl (?:\w+ for )?(\w+) \{")
# A type over items of either width, and an impl of it at the width that it has by default: the type, and the other arguments.
WIDE = re.compile(r"(?m)^(?:pub(?:\([a-z]+\))? )?(?:struct|enum) (\w+)<.*P: Part = u32>")
NARROW = re.compile(r" *impl<.*?> (\w+)<([^<>]*)> \{")
# An impl of a generic type with chosen arguments.
CHOSEN = re.compile(r" *impl [^<{]*<(?!')")
TRAIT = re.compile(r" *(?:pub(?:\([a-z]+\))? )?trait ")
IMPL = re.compile(r"( *)(?:unsafe )?impl\b(.*)")


@dataclass(frozen=True)
class Function:
    """A function: its file, the impl in which it stands, as the prover names it, or none, and its name."""

    file: str
    impl: str
    name: str

    def is_at(self, path):
        """Whether this is a path of the function, as the prover writes it, or of a closure in it."""
        parts = re.split(r"::|\+", path)
        if self.impl or not self.file:
            return self.name in parts and (not self.impl or self.impl in parts)
        # A method may have the name of a free function of the same module: behind its type, and not behind the module.
        return any(name == self.name and above == (self.module() or parts[0]) for above, name in zip(parts, parts[1:]))

    def module(self):
        """Returns the last module of its file, or nothing where that is the crate's root."""
        module = re.sub(r"/mod\.rt$|\.rt$", "", self.file).rpartition("/")[2]
        return module if module not in ("lib", "main") else ""

    def end_of_path(self):
        """Returns the end of its path: its impl and its name, or where it stands in none its module and its name."""
        return "::".join(it for it in (self.impl or self.module(), self.name) if it)

    def path_in(self, crate):
        """Returns the path that the function has where its type is of its own file."""
        module = re.sub(r"^src/|/mod|\.rt$", "", self.file)
        parts = [crate, *(module.split("/") if module not in ("lib", "main") else []), self.impl, self.name]
        return "::".join(it for it in parts if it)


def function_at(file, text, old):
    """Returns the function in which this text of the file stands, or None where it stands in none or the file has no such text."""
    if old not in text:
        return None
    lines = text.splitlines()
    above = head_at(lines, text.partition(old)[0].count("\n"))
    if above is None:
        return None
    found = FUNCTION.match(lines[above])
    return Function(file, impl_at(lines, above, len(found[1])), found[2])


def head_at(lines, at):
    """Returns which line begins the function in which this line stands, or None where it stands in none."""
    for above in range(at, -1, -1):
        found = FUNCTION.match(lines[above])
        if found and not any(it == found[1] + "}" for it in lines[above:at]):
            return above
    return None


def lines_of_function(lines, at):
    """Returns the first line of the function in which this line stands, its attributes among it, and the line behind its last."""
    head = head_at(lines, at)
    end = lines.index(FUNCTION.match(lines[head])[1] + "}", head) + 1
    while lines[head - 1].lstrip().startswith("#["):
        head -= 1
    return head, end


def without_body(text, function):
    """Returns the text of a file, of as many lines, in which this function has a loop without an end in place of its body. One of which a
    constant may be made keeps its body, and so does one that has none."""
    lines = text.splitlines()
    for at, line in enumerate(lines):
        found = FUNCTION.match(line)
        if not found or found[2] != function.name or "const fn" in line or impl_at(lines, at, len(found[1])) != function.impl:
            continue
        begin = next(it for it in range(at, len(lines)) if re.match(rf"{found[1]}(\S.*)?[{{}};]$", lines[it]))
        end = lines.index(f"{found[1]}}}", begin) if lines[begin].endswith("{") else begin
        if end > begin + 1:
            lines[begin + 1 : end] = [f"{found[1]}    loop {{}}", *[""] * (end - begin - 2)]
    return "\n".join([*lines, ""])


def impl_at(lines, at, indented):
    """Returns what the prover calls the impl round this line: its type, and behind that its trait, as in HeapStore."""
    return "".join(type_and_trait(lines, at, indented))


def is_of_trait(lines, at):
    """Whether the function that begins at this line stands in an impl of a trait."""
    return len(type_and_trait(lines, at, len(lines[at]) - len(lines[at].lstrip()))) == 2


def type_and_trait(lines, at, indented):
    """Returns the type of the impl round this line, and its trait where it has one."""
    for above in range(at, -1, -1):
        found = IMPL.match(lines[above])
        if found and len(found[1]) < indented and not any(it == found[1] + "}" for it in lines[above:at]):
            head, bare = " ".join([found[2], *lines[above + 1 : at]]).partition("{")[0], ""
            while bare != head:
                bare, head = head, re.sub(r"<[^<>]*>", " ", head)
            trait, of_trait, type_ = bare.partition(" where ")[0].rpartition(" for ")
            names = [re.findall(r"(\w+)\s*$", it)[0] for it in ([type_, trait] if of_trait else [type_])]
            # A number's type has a capital there.
            return [names[0][0].upper() + names[0][1:], *names[1:]]
    return []


def functions_of_crate(folder):
    """Yields the functions of a crate that have bodies and proofs of their own, each with its path below the crate, as the prover
    has it: a method stands in the module of its type, but for those of a type at one width. Left out are what derives write, what
    drops a value, functions of cycles, and methods of a generic type with chosen arguments."""
    texts = {os.path.relpath(it, folder): text_of(it) for it in sorted(glob.glob(f"{folder}/src/**/*.rt", recursive=True))}
    homes = {name: file for file, text in texts.items() for name in TYPE.findall(text)}
    generic = {name for text in texts.values() for name in GENERIC.findall(text)}
    for file, text in texts.items():
        lines = text.splitlines()
        for at, line in enumerate(lines):
            found = FUNCTION.match(line)
            around = block_of(lines, at, len(found[1])) if found else ""
            if not found or TRAIT.match(around) or CHOSEN.match(around) or is_in_cycle(lines, at, found):
                continue
            plain = PLAIN.match(around)
            if plain and plain[1] in generic:
                continue
            of = type_and_trait(lines, at, len(found[1]))
            narrow = narrow_impl(around)
            if narrow:
                yield Function(file, of[0], found[2]), "/".join(it for it in (module_of(file), narrow, found[2]) if it)
            elif of[1:] != ["Drop"]:
                home = module_of(homes.get(of[0], file) if of else file)
                yield Function(file, "".join(of), found[2]), "/".join(it for it in (home, "".join(of), found[2]) if it)


@functools.cache
def wide_types():
    """Returns the names of the types that are over items of either width."""
    files = glob.glob(f"{TOP}/crates/*/src/**/*.rt", recursive=True)
    return frozenset(name for file in files for name in WIDE.findall(text_of(file)))


def narrow_impl(head):
    """Returns what the prover calls an impl that begins so, where it is of such a type at the width that it has by default: it stands in
    its own file, by its type and the type's other arguments, as in Queue+S. Of any other it returns nothing."""
    found = NARROW.match(head)
    arguments = [it.strip() for it in found[2].split(",") if not it.strip().startswith("'")] if found else []
    return "+".join([found[1], *arguments]) if found and found[1] in wide_types() and "P" not in arguments else ""


def is_in_cycle(lines, at, found):
    """Whether the function that begins at this line calls itself, or has an attribute that says so of it and others."""
    above = at
    while lines[above - 1].lstrip().startswith("#["):
        above -= 1
    end = next((it for it in range(at, len(lines)) if lines[it] == found[1] + "}"), at + 1)
    own = "\n".join(lines[above:end])
    return "#[cycle" in own or calls_itself(found[2], own)


def calls_itself(name, text):
    """Whether the function of this name and text has a call of itself."""
    return bool(re.search(rf"(?<![\w.:])(self\.|Self::)?{name}(::<[^()]*>)?\(", text.partition(f"fn {name}")[2]))


def block_of(lines, at, indented):
    """Returns the first line of the block in which this line stands, or nothing where it stands in none."""
    for line in lines[at::-1]:
        text = line.lstrip()
        if text and not text.startswith(("//", "#[")) and len(line) - len(text) < indented:
            return line
    return ""


def module_of(file):
    """Returns the path of a file's module below the crate, or nothing where it is the crate's root."""
    path = re.sub(r"^src/|/mod\.rt$|\.rt$", "", file)
    return path if path not in ("lib", "main") else ""
