"""Tells on standard error how long a build takes, and how far it is."""
import contextlib
import os
import re
import signal
import subprocess
import sys
import tempfile
import threading
import time

from crate_list import with_below
from tree import TOP

# A line comes at least once in so many seconds.
SILENCE = 30
# What rt ci says of a crate once it is done.
DONE = re.compile(r"rt: (\w+) (proved$|is kept: )")


def end_on_signals():
    """Has the signals that end a script end it as an exit does, so that what it holds is let go."""
    for it in (signal.SIGTERM, signal.SIGHUP, signal.SIGINT):
        signal.signal(it, lambda number, _: sys.exit(128 + number))


class Teller:
    """Tells lines on a build of this with the time since it began."""

    def __init__(self, who, what):
        self.who, self.what, self.began = who, what, time.time()

    def tell(self, text):
        seconds = int(time.time() - self.began)
        # Where that can't be written, the build goes on.
        with contextlib.suppress(OSError):
            os.write(2, f"{self.who}: {seconds // 60}:{seconds % 60:02}  {text}\n".encode())

    def repeat(self, ended, text, silence=SILENCE):
        """Tells again and again what text() says, until ended is set."""
        while not ended.wait(silence):
            self.tell(text())


class Proof:
    """A run of rt ci under way that proves a crate and those below it, and what is told of it: of each crate a line."""

    def __init__(self, teller, command, crate):
        self.teller, self.below, self.done = teller, with_below([crate]), 0
        self.said = tempfile.TemporaryFile("w+", errors="replace")
        how = {"stdin": subprocess.DEVNULL, "stdout": subprocess.PIPE, "stderr": subprocess.STDOUT, "text": True, "errors": "replace"}
        self.run = subprocess.Popen(command, start_new_session=True, cwd=TOP, **how)

    def how_far(self):
        """Returns how many crates are proved."""
        return f"{self.done} of {len(self.below)} crates are proved"

    def make(self):
        """Follows the command to its end: its status."""
        ended = threading.Event()
        threading.Thread(target=self.teller.repeat, args=(ended, self.how_far), daemon=True).start()
        try:
            for line in self.run.stdout:
                self.said.write(line)
                found = DONE.match(line)
                if found:
                    self.done += 1
                    self.teller.tell(f"{found[1]} proved" if found[2] == "proved" else f"{found[1]} was proved by an earlier run")
            return self.run.wait()
        finally:
            ended.set()
            self.end()

    def tell_all(self):
        """Prints all that the command said."""
        self.said.seek(0)
        print(self.said.read(), file=sys.stderr)

    def end(self):
        """Ends what still runs."""
        if self.run.poll() is None:
            os.killpg(self.run.pid, signal.SIGTERM)
            self.run.wait()
