"""The rows of tests/rows: runs of the program, each by its name, with what it is given and what it has to do.

They stand in transcripts, tests/rows/NAME.rows. A row there is a line with its name and below it, each line two spaces in:

  $ flatpq seq --lines 4        the words of the command line
  < push 5 1                    a line of standard input
  > 1 pushed                    a line of standard output
  ! flatpq: line 2: ..          a line of standard error
  * 700 1                       behind such a line: it comes 700 times in all, and its first number is 1 more each time; behind the
                                times may stand a step for each number of the line, and those without a step stay
  @ input slow pipe             where standard input comes from, if from no file that has these lines:
                                  slow pipe       each byte comes by itself
                                  open pipe       stays open until the program has ended
                                  patient pipe    stays open until all of standard output has come
                                  closed          there is no standard input
                                  PATH            this file or folder, with a slash in it, seen from the top
  @ line 501 502 57 8 pop ..    this stands in place of line 501 of that file
  @ output /dev/full            where standard output goes, if into no file that takes it: 'broken pipe', closed or a PATH
  @ errors closed               the same of standard error
  @ memory 12000                how many KiB of addresses the program may have, where not as many as it likes
  ? 3                           the exit status, where it isn't 0

A line that ends in ' (esc)' has \\r, \\t, \\\\ and \\xNN for bytes, and one that ends in ' (no line feed)' has none behind it.
A line that begins with '#' is a comment.
"""
import glob
import os
import re
import shlex

from tree import TOP

ROWS = f"{TOP}/tests/rows"
# The parts of a row that have lines, by their signs, and those that have a word, by what it stands behind.
SIGNS = {"<": "stdin", ">": "stdout", "!": "stderr"}
SETTINGS = {"input": "stdin-from", "line": "line", "output": "stdout-to", "errors": "stderr-to", "memory": "memory"}
ESCAPED, UNENDED = " (esc)", " (no line feed)"
BYTES = {"r": b"\r", "t": b"\t", "\\": b"\\"}
NUMBER = re.compile(r"\d+")
# So many lines of a kind are written as one that is repeated.
LEAST_REPEATED = 20


class BadRow(Exception):
    """A row that can't be read."""


def contents(file):
    with open(file, "rb") as it:
        return it.read()


def lines_of(text):
    """Returns the lines of bytes, each with its line feed where it has one."""
    return re.findall(rb"[^\n]*\n|[^\n]+", text)


def bytes_of(text):
    """Returns the bytes of one line of a transcript, behind its sign."""
    ended = not text.endswith(UNENDED)
    text = text if ended else text[: -len(UNENDED)]
    plain = text.encode()
    if text.endswith(ESCAPED):
        pieces = re.findall(r"\\x[0-9a-f]{2}|\\[rt\\]|[^\\]", text[: -len(ESCAPED)])
        plain = b"".join(
            it.encode() if it[0] != "\\" else bytes.fromhex(it[2:]) if it[1] == "x" else BYTES[it[1]] for it in pieces
        )
    return plain + b"\n" * ended


def text_of(line):
    """Returns how a transcript shows one line of bytes."""
    ended, line = line.endswith(b"\n"), line.removesuffix(b"\n")
    is_plain = re.fullmatch(rb"([\x20-\x7e]*[\x21-\x7e])?", line) and not line.endswith((ESCAPED.encode(), UNENDED.encode()))
    shown = line.decode("ascii") if is_plain else ""
    for at, byte in enumerate(b"" if is_plain else line):
        signs = {13: "\\r", 9: "\\t", 92: "\\\\"}
        is_shown = 33 <= byte < 127 or byte == 32 and at + 1 < len(line)
        shown += signs.get(byte) or (chr(byte) if is_shown else f"\\x{byte:02x}")
    return shown + ESCAPED * (not is_plain) + UNENDED * (not ended)


def words_of(text):
    """Returns the words of a command line, one a line, or None where it is none of the program."""
    words = shlex.split(bytes_of(text).decode(errors="surrogateescape"))
    if words[:1] != ["flatpq"]:
        return None
    return "".join(it + "\n" for it in words[1:]).encode(errors="surrogateescape")


def stepped(text, steps, times):
    """Returns a line whose numbers are so many steps further."""
    left = iter(steps)
    return NUMBER.sub(lambda it: str(int(it[0]) + times * step) if (step := next(left, 0)) else it[0], text)


def repeated(text, others):
    """Returns how many of the other lines follow this one by steps of its numbers, each by the same, and these steps."""
    numbers = [[int(it) for it in NUMBER.findall(line)] for line in (text, *others[:1])]
    is_same = others[:1] == [text]
    if not is_same and (not others or len(numbers[0]) != len(numbers[1]) or text.endswith((ESCAPED, UNENDED))):
        return 0, []
    steps = [after - before for before, after in zip(*numbers)]
    count = next((at for at, it in enumerate(others) if it != stepped(text, steps, at + 1)), len(others))
    while steps and not steps[-1]:
        steps.pop()
    return count, steps


def folded(sign, lines):
    """Returns the lines of a transcript that show these lines, each of many that follow one another by steps once."""
    shown, at = [], 0
    while at < len(lines):
        shown.append(f"  {sign} {lines[at]}".rstrip(" "))
        count, steps = repeated(lines[at], lines[at + 1 :])
        if count + 1 >= LEAST_REPEATED:
            shown.append(" ".join(["  *", str(count + 1), *map(str, steps)]))
            at += count
        at += 1
    return shown


class Transcript:
    """A file of rows: of each what stands above it, its name and its parts."""

    def __init__(self, file):
        self.file, self.rows, self.end = file, [], []
        # The sign and the text of the last line, which may be repeated.
        self.last = None
        above = []
        for number, line in enumerate(contents(file).decode().split("\n")[:-1], 1):
            if re.fullmatch(r"[a-z0-9-]+", line):
                self.rows.append((above, line, {}))
                above, self.last = [], None
            elif line.startswith("#") or not line:
                above.append(line)
            elif not self.rows or above or not self.take(line):
                raise BadRow(f"{os.path.relpath(file, TOP)}, line {number}: no line of a row")
        self.end = above

    def take(self, line):
        """Adds a line to the last row; whether it is one of a row."""
        parts = self.rows[-1][2]
        sign, text, before = line[2:3], line[4:], self.last
        self.last = (sign, text) if sign in SIGNS else None
        if line[:2] != "  " or line[3:4] not in ("", " "):
            return False
        if sign == "$" and "args" not in parts and (words := words_of(text)) is not None:
            parts["args"] = words
        elif sign == "@" and (name := SETTINGS.get(text.partition(" ")[0])):
            parts[name] = bytes_of(text.partition(" ")[2])
        elif sign == "?" and text.isdigit():
            parts["status"] = text.encode() + b"\n"
        elif sign == "*" and before and re.fullmatch(r"\d+( -?\d+)*", text):
            times, *steps = map(int, text.split())
            further = (stepped(before[1], steps, it) for it in range(1, times))
            parts[SIGNS[before[0]]] += b"".join(map(bytes_of, further))
        elif sign in SIGNS:
            parts[SIGNS[sign]] = parts.get(SIGNS[sign], b"") + bytes_of(text)
        else:
            return False
        return True

    def text(self):
        """Returns the whole transcript as it is written."""
        lines = []
        for above, name, parts in self.rows:
            words = parts.get("args", b"").decode(errors="surrogateescape").splitlines()
            command = shlex.join(["flatpq", *words]).encode(errors="surrogateescape")
            lines += [*above, name, f"  $ {text_of(command + bytes([10]))}"]
            lines += [f"  @ {it} {text_of(parts[part])}" for it, part in SETTINGS.items() if part in parts]
            for sign, part in SIGNS.items():
                lines += folded(sign, [text_of(it) for it in lines_of(parts.get(part, b""))])
            status = (parts.get("status") or b"0\n").decode().strip()
            lines += [f"  ? {status}"] if status != "0" else []
        return "".join(it + "\n" for it in [*lines, *self.end])

    def write(self):
        with open(self.file, "w", encoding="utf-8") as it:
            it.write(self.text())


def transcripts():
    return [Transcript(it) for it in sorted(glob.glob(f"{ROWS}/*.rows"))]


def with_input(name, parts):
    """Returns the parts of a row, in which standard input is what a file with another line has, where it is told so."""
    if "line" not in parts:
        return parts
    number, _, text = parts["line"].partition(b" ")
    lines = lines_of(contents(f"{TOP}/{parts['stdin-from'].decode().strip()}"))
    if not 0 < int(number) <= len(lines):
        raise BadRow(f"{name}: its input has no line {int(number)}")
    lines[int(number) - 1] = text
    return {part: it for part, it in parts.items() if part not in ("line", "stdin-from")} | {"stdin": b"".join(lines)}


def all_rows():
    """Returns the parts of each row by its name."""
    found = {}
    for name, parts in ((name, parts) for it in transcripts() for _, name, parts in it.rows):
        if name in found:
            raise BadRow(f"two rows are called {name}")
        found[name] = with_input(name, parts)
    return found
