"""Tests the journals that `flatpq load --journal FILE` and `flatpq seq --journal FILE` write to files.

What `flatpq audit` says of a load's journal is what the load reports. A file that is there is replaced by a whole journal, or
stays as it is, and nothing is left beside it. What goes to standard output stands in rows.
"""
import os
import re
import resource
import signal
import subprocess
import tempfile
import time

SECONDS = 300
LOADS = ["1 1 1", "4 200 150", "8 2000 2000", "64 20 13"]
# Loads of many rounds, whose journals are longer than memory keeps them; and one of which each round of all is so.
LASTING = ["8 1000 900 70", "64 200 200 41", "16 8192 8192 5"]
# A load whose rounds are doubled until it takes so many seconds that it has to tell how far it is; and how it tells.
LONG, ROUNDS, TELLS = "load --workers 4 --pushes 2000 --pops 2000 --progress --rounds", (400, 400 << 8), 3
FAR = re.compile(r"flatpq: (\d+) of (\d+) rounds\n")
SCRIPT, JOURNAL = "push 5 1\nleast\npop\npop\n", "1 0 1 push 5 1 pushed\n2 0 2 least least 5 1\n3 0 3 pop got 5 1\n4 0 4 pop empty\n"
# A load, its report, and a file that was there before.
LOAD = "load --workers 1 --pushes 2000 --pops 2000 --journal"
OLD = "what was there\n" * 9
FAILED = "flatpq: journal failed\n"
FULL = "/dev/full"


def at_most(size):
    """Lets the program write no more bytes into a file; a further write fails."""
    signal.signal(signal.SIGXFSZ, signal.SIG_IGN)
    resource.setrlimit(resource.RLIMIT_FSIZE, (size, size))


class Trial:
    """The program, and a folder in which it runs."""

    def __init__(self, program, room):
        self.program, self.room = program, room

    def run(self, words, text="", limit=None, output=subprocess.PIPE):
        """Returns the status of a run, what it writes, and what it complains of."""
        how = {"preexec_fn": (lambda: at_most(limit))} if limit else {}
        how |= {"stdout": output, "stderr": subprocess.PIPE, "text": True, "cwd": self.room, "timeout": SECONDS}
        did = subprocess.run([self.program, *words.split()], input=text, **how)
        return did.returncode, did.stdout, did.stderr

    def put(self, file, text):
        with open(f"{self.room}/{file}", "w", encoding="utf-8") as it:
            it.write(text)

    def files(self):
        """Returns each file of the folder with its text, and empties the folder."""
        found = {}
        for it in sorted(os.listdir(self.room)):
            with open(f"{self.room}/{it}", encoding="utf-8") as file:
                found[it] = file.read()
            os.remove(f"{self.room}/{it}")
        return found


def load_outcome(trial, load, width=""):
    """Nothing, or how the journal of a load of this width differs from what the load reports."""
    workers, pushes, pops, *rounds = load.split()
    words = f"load{width} --workers {workers} --pushes {pushes} --pops {pops} --journal it"
    status, report, _ = trial.run(" ".join([words, *(f"--rounds {it}" for it in rounds)]))
    audited, said, why = trial.run(f"audit{width} it")
    # Both reports have these lines; the first of each tells workers, or lines, and the audit's also places.
    wanted = [it for it in report.splitlines() if not it.startswith("workers")]
    found = [it for it in said.splitlines() if not it.startswith("places")]
    return "" if (status, audited, sorted(found)) == (0, 0, sorted(wanted)) else f"load{width} {load}: {report} {said} {why}"


def pipe_outcome(trial):
    """Nothing, or how the journal that goes into a pipe differs from that of a file."""
    os.mkfifo(f"{trial.room}/pipe")
    words = [trial.program, "audit", "pipe"]
    with subprocess.Popen(words, cwd=trial.room, stdout=subprocess.PIPE, text=True) as reading:
        told = trial.run("seq --journal pipe", SCRIPT)
        try:
            said = reading.communicate(timeout=SECONDS)[0]
        except subprocess.TimeoutExpired:
            # Nobody has opened the pipe to write.
            reading.kill()
            said = ""
    os.remove(f"{trial.room}/pipe")
    return "" if told[0] == 0 and said.startswith("lines 4\n") else f"a pipe: {told}: {said}"


def behind_report(trial):
    """Nothing, or what is wrong with the journal that stands behind the report of a load."""
    status, wrote, _ = trial.run("load --workers 8 --pushes 300 --pops 100 --journal -")
    report, _, journal = wrote.partition("audit ok\n")
    audited = trial.run("audit", journal)
    return "" if (status, audited[0], report[:8]) == (0, 0, "workers ") else f"standard output: {status}, {audited}"


def progress(trial):
    """Nothing, or what is wrong with what tells how far a load is: of one that takes seconds it is told."""
    rounds, took = ROUNDS[0] // 2, 0
    while took < TELLS and rounds < ROUNDS[1]:
        rounds *= 2
        begun = time.monotonic()
        status, report, told = trial.run(f"{LONG} {rounds}")
        took = time.monotonic() - begun
        far = [(int(made), int(every)) for made, every in FAR.findall(told)]
        is_told = took < 2 or far
        is_so = is_told and FAR.sub("", told) == "" and len(far) <= took and far == sorted(set(far))
        is_so = is_so and all(0 < made < every == rounds for made, every in far)
        if not is_so or status != 0 or not report.endswith("audit ok\n"):
            return f"progress of {rounds} rounds: {status}, {took} s, {told!r}"
    return "" if took >= TELLS else f"progress: {rounds} rounds took {took} s"


def outcomes(trial):
    """Returns the outcome of each trial: nothing, or what is wrong."""

    def leaves(told, status, complaint, files):
        found = trial.files()
        is_so = told[0] == status and told[2] == complaint and found == files
        return "" if is_so else f"status {told[0]}, {told[2]!r}, {({it: text[:40] for it, text in found.items()})}"

    for load, width in [(it, "") for it in LOADS + LASTING] + [(it, " --wide") for it in LOADS + LASTING[:1]]:
        yield load_outcome(trial, load, width)
        trial.files()
    yield progress(trial)
    yield pipe_outcome(trial)
    yield behind_report(trial)
    yield leaves(trial.run("seq --journal it", SCRIPT), 0, "", {"it": JOURNAL})
    trial.put("it", OLD)
    yield leaves(trial.run("seq --journal it", SCRIPT), 0, "", {"it": JOURNAL})
    trial.put("it", OLD)
    yield leaves(trial.run("seq --journal it", SCRIPT + "none\n"), 3, "flatpq: line 5: unknown command\n", {"it": OLD})
    trial.put("it", OLD)
    told = trial.run(f"{LOAD} it", limit=65536)
    yield leaves(told, 6, FAILED, {"it": OLD})
    yield "" if told[1].endswith("audit ok\n") else f"a failed write takes the report: {told}"
    yield leaves(trial.run(f"{LOAD} it", limit=65536), 6, FAILED, {})
    trial.put("it", OLD)
    told = trial.run(f"{LOAD} it --rounds 270", limit=1 << 22)
    yield leaves(told, 6, FAILED, {"it": OLD})
    yield "" if told[1].endswith("audit ok\n") else f"a failed write takes the report of a lasting load: {told}"
    # Where nobody can read the report, what was there stays, of a journal that is written while the load runs too.
    for words in (f"{LOAD} it", f"{LOAD} it --rounds 270"):
        trial.put("it", OLD)
        with open(FULL, "wb") as full:
            yield leaves(trial.run(words, output=full), 6, "flatpq: output failed\n", {"it": OLD})
    yield leaves(trial.run(f"{LOAD} no/it"), 6, FAILED, {})
    yield leaves(trial.run(f"{LOAD} {trial.room}"), 6, FAILED, {})


def try_all(program):
    """Tells what is wrong with the journals that this program writes: how many trials passed and failed."""
    with tempfile.TemporaryDirectory() as room:
        told = list(outcomes(Trial(program, room)))
    failures = [it for it in told if it]
    print("".join(f"FAILED {it}\n" for it in failures), end="")
    return len(told) - len(failures), len(failures)
