"""Proves and builds the program flatpq, by rt ci over the crates that it stands on, and tells on standard error how far it is.

What an earlier run on this machine has proved, and nobody has changed, is taken as it is.
"""
import sys

sys.dont_write_bytecode = True
import making
import telling
from tree import TOP

PROGRAM = "flatpq"
BUILT = f"{TOP}/crates/{PROGRAM}/out/{PROGRAM}"


def program():
    making.proved(telling.Teller(PROGRAM, "program"), PROGRAM, BUILT)


if __name__ == "__main__":
    sys.exit(making.status_of(PROGRAM, program))
