"""Says whether each wrong edit of tests/mutants/ fits the sources, so that it can be made: its old lines stand there once, and no other edit of
its file has its name. None is made, and nothing is built.
"""
import importlib.machinery
import importlib.util
import sys

from tree import TOP


def mutants():
    loader = importlib.machinery.SourceFileLoader("mutants", f"{TOP}/tests/tools/mutants")
    module = importlib.util.module_from_spec(importlib.util.spec_from_loader("mutants", loader))
    sys.modules["mutants"] = module
    loader.exec_module(module)
    return module


def check():
    """Prints what is wrong, and returns how many passed and failed."""
    tool, failed, count = mutants(), 0, 0
    for file, player in tool.PLAYERS.items():
        names = set()
        for it in tool.read_mutants(file):
            why = "another edit has this name" if it.name in names else tool.misfit(player, it)
            names.add(it.name)
            count += 1
            if why:
                failed += 1
                print(f"FAILED {file}.diff: {it.name}: {why}")
    return count - failed, failed
