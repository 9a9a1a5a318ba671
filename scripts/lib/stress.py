"""Tries the running queue for so many minutes, by the client `queue_stress` of the library.

Each run plays rounds of random schedules, drawn from a seed: the first from SEED, each further one from the next number. It ends with
the first run in which something does not match, and tells in which file the journal of that round is; or which has no end after a
minute: a hang, which may be one of the queue, or of the machine. The client is built over the archive FILE, or out/libflatpq.a, which is
built first where it has to be.
"""
import argparse
import os
import secrets
import subprocess
import tempfile
import time

import clients

# A run of so many rounds takes some seconds, and has hung where it has not ended after so many.
ROUNDS, SECONDS = 200, 60


def words(given):
    """Returns what the command line asks for."""
    it = argparse.ArgumentParser(prog="scripts/trials stress", description=__doc__, formatter_class=argparse.RawDescriptionHelpFormatter)
    it.add_argument("minutes", type=float, metavar="MINUTES")
    it.add_argument("seed", type=int, nargs="?", default=secrets.randbits(32), metavar="SEED", help="drawn where none is given")
    it.add_argument("--library", metavar="FILE", help="the archive")
    return it.parse_args(given)


def run(program, seed):
    """Plays the rounds of a seed: the number of their calls, and what did not match, if anything."""
    try:
        did = subprocess.run([program, str(seed), str(ROUNDS)], capture_output=True, text=True, timeout=SECONDS)
    except subprocess.TimeoutExpired:
        return 0, f"hang: seed {seed} has not ended after {SECONDS} seconds"
    said = (did.stdout + did.stderr).strip()
    if did.returncode:
        return 0, said or f"seed {seed}: status {did.returncode}"
    return int(said.split()[3].rstrip(",")), None


def main(given):
    asked = words(given)
    library = os.path.realpath(asked.library) if asked.library else clients.archive()
    ends, seed, calls = time.monotonic() + 60 * asked.minutes, asked.seed, 0
    with tempfile.TemporaryDirectory() as folder:
        program = clients.queue_stress(library, folder)
        while time.monotonic() < ends:
            made, fault = run(program, seed)
            if fault:
                print(f"stress: {fault}")
                return 1
            seed, calls = seed + 1, calls + made
    runs = seed - asked.seed
    print(f"stress: seeds {asked.seed} to {seed - 1}, rounds {runs * ROUNDS}, calls {calls}, mismatches 0")
    return 0
