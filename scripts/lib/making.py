"""What the builds of the program and of the library share: where what is built comes to stand, that one run alone builds it, and how a
build ends that fails."""
import contextlib
import errno
import fcntl
import os
import sys
import threading

import joining
import sources
import telling
from tree import TOP
from unproved import NotBuilt, OtherToolchain, emptied, kit_folder

# Seconds between two lines that say how far a build is.
SILENCE = 15


def is_writable(folder):
    """Returns whether this folder can be made, where it isn't there, and written."""
    while not os.path.exists(folder):
        folder = os.path.dirname(folder)
    return os.path.isdir(folder) and os.access(folder, os.W_OK)


def place_of(name):
    """Returns where what has this name is built, and whether it is there as the sources are. Where the checkout can't be written, that is
    a folder of the user's cache, named by the sum of the sources."""
    here = f"{TOP}/out/{name}"
    if is_writable(os.path.dirname(here)) or sources.is_current(here):
        return here, sources.is_current(here)
    cache = os.environ.get("XDG_CACHE_HOME") or os.path.expanduser("~/.cache")
    there = f"{cache}/flatpq/{sources.sum_of_sources()}/{name}"
    if not is_writable(os.path.dirname(there)):
        raise NotBuilt(f"neither {TOP}/out nor {cache}/flatpq can be written")
    return there, os.path.isfile(there)


@contextlib.contextmanager
def alone(made, teller):
    """Has no other run build this meanwhile."""
    os.makedirs(os.path.dirname(made), exist_ok=True)
    with open(f"{made}.lock", "w", encoding="utf-8") as held:
        try:
            fcntl.flock(held, fcntl.LOCK_EX | fcntl.LOCK_NB)
        except BlockingIOError:
            teller.tell(f"another run builds the {teller.what}, and this one waits for it")
            fcntl.flock(held, fcntl.LOCK_EX)
        yield


def built(build_of, to, teller, known):
    """Builds something without any proof. Beside it stands what is known of it, and never that of another: it comes last."""
    kit = kit_folder()
    teller.tell(f"the {teller.what} is built without any proof, which takes about a minute, once")
    with emptied(f"{to}.room") as room:
        build, ended = build_of(kit, room), threading.Event()
        threading.Thread(target=teller.repeat, args=(ended, lambda: build.stage, SILENCE), daemon=True).start()
        try:
            made = build.make()
        finally:
            ended.set()
        placed(made, to, teller, known)
    teller.tell("built")


def placed(made, to, teller, known):
    """Puts what was made in its place. Each source that changes after the build has begun is newer."""
    with open(f"{made}.told", "w", encoding="utf-8") as it:
        it.write(known)
    os.utime(made, (teller.began, teller.began))
    with contextlib.suppress(FileNotFoundError):
        os.remove(to)
    os.replace(f"{made}.told", f"{to}.told")
    os.replace(made, to)


def proved(teller, crate, made):
    """Proves a crate by scripts/prove-all, unless what that makes is there as the sources are. What an earlier run on this machine has
    proved, and nobody has changed, is taken as it is."""
    if sources.is_proved(made):
        return
    kit_folder()
    if not os.access(f"{TOP}/crates/{crate}", os.W_OK):
        raise NotBuilt(f"{TOP} can't be written, so nothing can be proved and built there")
    with alone(f"{TOP}/out/proof", teller):
        if sources.is_proved(made):
            return
        proof = telling.Proof(teller, [f"{TOP}/scripts/prove-all", crate], crate)
        teller.tell(f"the {teller.what} is proved and built, which takes long from nothing")
        if proof.make():
            proof.tell_all()
            raise NotBuilt(f"it was not proved, so the {teller.what} was not built")
        if not sources.is_proved(made):
            raise NotBuilt("the sources changed while they were proved, so they have to be proved again")
    teller.tell("proved and built")


def status_of(who, make):
    """Has something be built, prints what make() returns, and returns the status: 1 where it wasn't built, and 3 where this toolchain isn't
    one that lets it be built without a proof."""
    telling.end_on_signals()
    try:
        if made := make():
            print(made)
    except (NotBuilt, joining.NotJoined) as why:
        print(f"{who}: {why}", file=sys.stderr)
        return 1
    except OSError as error:
        is_full = error.errno in (errno.ENOSPC, errno.EDQUOT, errno.EFBIG)
        print(f"{who}: {'no room: ' if is_full else ''}{error}", file=sys.stderr)
        return 1
    except (OtherToolchain, ImportError, AttributeError, TypeError) as why:
        print(f"{who}: nothing can be built without proof: {why}", file=sys.stderr)
        return 3
    return 0
