"""The order in which runs write the store's file, sync it and speak, as the system sees it; and runs of which each sync fails in turn. It needs a
C compiler."""
import errno
import os
import shutil
import subprocess

from keeping import JOURNAL
from running import contents, ended, here, program, tell, written
from schemas import CELLS

COMPILER = next(filter(shutil.which, ("cc", "gcc", "clang")), None)

# Letters: the store's file is written, once or more (w), synced (s), its folder is synced (f), a reply is spoken (o).
INIT = "fwsws"
MOUNT = "ss"
# The gate that ends the journal is open and has another epoch behind it: it is closed.
MOUNT_OVER_OLDER = "sws"
# Each line of a script over a new store, its reply, and what comes up to this.
LINES = [
    ("open s basic rw", "OK", "o"),
    ("create s Cells 7", f"OK i1 {1:08x}{1:016x}", "o"),
    ("flush s", "OK", "wswso"),
    # Nothing has changed.
    ("flush s", "OK", "o"),
    # The other root area has no root yet.
    ("checkpoint", "OK", "swswswso"),
    ("create s Cells 8", f"OK i2 {1:08x}{2:016x}", "o"),
    ("flush s", "OK", "wswso"),
    ("checkpoint", "OK", "wswswswso"),
    # The journal is empty.
    ("checkpoint", "OK", "wswswsso"),
    ("create s Cells 9", f"OK i3 {1:08x}{3:016x}", "o"),
    ("flush s", "OK", "wswso"),
]
# How many replies there are where a commit was answered.
COMMITS = (3, 7, 11)
SCRIPT = "".join(f"{line}\n" for line, _, _ in LINES).encode()
ORDER = MOUNT + "".join(order for _, _, order in LINES)


def calls_in(told):
    """The calls that were told: letter, place and octets of each."""
    at = 0
    while at < len(told):
        letter, place, count = told[at : told.index(b"\n", at)].split()
        at = told.index(b"\n", at) + 1 + int(count)
        yield letter.decode(), int(place), told[at - int(count) : at]


class Watched:
    """Runs with a library in front of the system's that tells their calls."""

    def __init__(self, folder):
        self.shim, self.told = (os.path.join(folder, name) for name in ("syncs.so", "told"))
        subprocess.run([COMPILER, "-O2", "-shared", "-fPIC", "-o", self.shim, os.path.join(here, "syncs.c"), "-ldl"], check=True)

    def run(self, words, script=b"", failed=0, error=errno.EIO):
        """How a run ends of which a sync fails, that with this number, and the order of its calls. Writes one behind the other count once."""
        run, calls = self.calls(words, script, failed, error)
        order = "".join(letter for letter, _, _ in calls)
        while "ww" in order:
            order = order.replace("ww", "w")
        return run, order

    def calls(self, words, script, failed=0, error=errno.EIO):
        """The same with the calls themselves."""
        watch = {"LD_PRELOAD": self.shim, "TOLD": self.told, "STORE": words[-1], "FAILED": str(failed), "ERROR": str(error)}
        run = ended([program, *words], script, env={**os.environ, **watch})
        return run, list(calls_in(contents(self.told)))


def replies(count):
    return "".join(f"{reply}\n" for _, reply, _ in LINES[:count]).encode()


def up_to(order, number):
    """The calls up to the sync with this number."""
    places = [at for at, letter in enumerate(order) if letter in "sf"]
    return order[: places[number - 1] + 1]


def syncs_in(order):
    return sum(letter in "sf" for letter in order)


def expect_kept(name, words, least, most):
    """A store has so many cells, and takes one more."""
    status, spoken, complaint = ended([program, *words], b"open s basic rw\ncount s Cells\ncreate s Cells 1\nflush s\ncheckpoint\n")
    seen = spoken.decode().splitlines()
    same = (status, complaint, len(seen), seen[3:]) == (0, b"", 5, ["OK", "OK"]) and seen[1] in (f"OK {count}" for count in range(least, most + 1))
    tell(f"what is kept: {name}", same, (status, spoken, complaint))


def failing(watched, first, words):
    """Each sync of a run fails in turn. The run ends there, and the store has the commits that were answered, or also the one in progress."""
    for number in range(1, syncs_in(ORDER) + 1):
        shutil.copyfile(first, words[2])
        run, order = watched.run(words, SCRIPT, number)
        wanted = up_to(ORDER, number)
        answered = wanted.count("o")
        tell(f"sync {number} fails", (run, order) == ((6, replies(answered), b""), wanted), (run, order))
        done = sum(answered >= commit for commit in COMMITS)
        expect_kept(f"sync {number} fails", words, done, done + (LINES[answered][0] == "flush s"))


def interrupted(watched, first, words):
    """A sync that is interrupted is asked for again."""
    for number in range(1, syncs_in(ORDER) + 1):
        shutil.copyfile(first, words[2])
        before = up_to(ORDER, number)
        run, order = watched.run(words, SCRIPT, number, errno.EINTR)
        tell(f"sync {number} is interrupted", (run, order) == ((0, replies(len(LINES)), b""), f"{before}s{ORDER[len(before):]}"), (run, order))


def mounts(watched, words):
    """A mount of a journal that ends at an open gate, as a crash in the last step of a checkpoint may leave it."""
    for number in (0, 1, 2):
        ended([program, *words], b"checkpoint\n")
        with open(words[2], "r+b") as file:
            file.seek(JOURNAL)
            file.write(b"\xa5")
        run, order = watched.run(words, b"", number)
        wanted = up_to(MOUNT_OVER_OLDER, number) if number else MOUNT_OVER_OLDER
        tell(f"a mount whose sync {number} fails", (run, order) == ((6 if number else 0, b"", b""), wanted), (run, order))
        expect_kept(f"a mount whose sync {number} fails", words, 3 + number, 3 + number)


def behind_links(watched, schema, folder):
    """Stores that are made by the name of a symbolic link: the folder that is synced is that of the file."""
    elsewhere, link, further = (os.path.join(folder, name) for name in ("elsewhere", "link", "further"))
    os.mkdir(elsewhere)
    os.symlink(os.path.join("elsewhere", "store"), link)
    os.symlink(link, further)
    for name in (link, further):
        run, order = watched.run(["init", schema, name])
        tell("a new store by a symbolic link", (run, order) == ((0, b"", b""), INIT), (run, order))
        os.unlink(os.path.join(elsewhere, "store"))


def syncs(folder):
    watched, schema = Watched(folder), written(folder, CELLS)
    first, store = (os.path.join(folder, name) for name in ("first", "store"))
    for number in range(1, syncs_in(INIT) + 1):
        run, order = watched.run(["init", schema, store], b"", number)
        tell(f"a new store whose sync {number} fails", (run, order) == ((6, b"", b""), up_to(INIT, number)), (run, order))
        os.unlink(store)
    run, order = watched.run(["init", schema, first])
    tell("the order of the calls for a new store", (run, order) == ((0, b"", b""), INIT), (run, order))
    behind_links(watched, schema, folder)
    words = ["run", schema, store]
    failing(watched, first, words)
    interrupted(watched, first, words)
    shutil.copyfile(first, store)
    run, order = watched.run(words, SCRIPT)
    tell("the order of the calls of a run", (run, order) == ((0, replies(len(LINES)), b""), ORDER), (run, order))
    mounts(watched, words)
