"""The words of the kinds of store, as crates/program_words/src/options.rt has them, and of what queue_bench times, as that program
has them."""
import re

from tree import TOP, text_of


def stores():
    listed = re.search(r"(?m)^static STORES: \[&str; \d+\] = \[(.*)\];$", text_of(f"{TOP}/crates/program_words/src/options.rt"))
    return re.findall(r'"(\w+)"', listed[1])


def kinds():
    found = re.findall(r'(?m)^ *"([\w-]+)" => Some\(Kind::', text_of(f"{TOP}/crates/queue_bench/src/words.rt"))
    if not found:
        raise LookupError("crates/queue_bench/src/words.rt: named has no kinds")
    return found


STORES = stores()
KINDS = kinds()
