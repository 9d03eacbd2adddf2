"""Runs that are killed, and disks that are full: what a store has afterwards. Of each script every commit that was acknowledged is there, and at
most the one that was under way beside them."""
import os
import random
import resource
import shutil
import signal
import time

from running import dialogue, ended, fresh, program, shortened, tell, written
from schemas import CELLS, NOTES, pid

FIRST_SLOT = 4456448
PAGE = 16384


# ---- kill -9

KILLS = 200
# A run is killed within so many seconds of its start, or sooner where a whole run takes less.
LATEST = 0.06
# So many commits are asked for in a run, and after each so many there is a checkpoint.
COMMITS = 400
BETWEEN_CHECKPOINTS = 7


def counting(done):
    """The lines of a run behind a store with so many commits: each commit of number n sets the first cell to n and makes one with n."""
    lines = ["open s basic rw", f"pid s {pid(1)}"]
    for number in range(done + 1, done + COMMITS + 1):
        lines += [f"set s i1 v {number}", f"create s Cells {number}", "flush s"]
        if number % BETWEEN_CHECKPOINTS == 0:
            lines.append("checkpoint")
    return lines


def acknowledged(lines, spoken):
    """How many commits were answered, by the whole replies to the first of these lines."""
    replies = spoken.split(b"\n")[:-1]
    return sum(line == "flush s" and reply == b"OK" for line, reply in zip(lines, replies))


def killed(words, lines, seconds):
    """What a run speaks that is killed after some seconds."""
    script = "".join(f"{line}\n" for line in lines).encode()
    talk, why = dialogue(words)
    if not talk:
        tell("a run that is killed", False, why)
        return b""
    # The pipe takes a script of this length whole.
    talk.say(script)
    time.sleep(seconds)
    talk.child.kill()
    status, spoken, complaint = talk.end()
    tell("a run that is killed", status in (-signal.SIGKILL, 0) and complaint == b"", (status, complaint))
    return spoken


def commits_in(words):
    """How many commits a store has that `counting` fills: that of the first cell, if there is a cell for each commit and one more."""
    status, spoken, complaint = ended([program] + words, f"open s basic ro\npid s {pid(1)}\nget s i1 v\ncount s Cells\n".encode())
    replies = spoken.decode().split()
    if (status, complaint, len(replies)) != (0, b"", 8) or int(replies[7]) != int(replies[5]) + 1:
        return f"status {status}, {spoken[-200:]}"
    return int(replies[5])


def expect_cells(words, done):
    """The cell of each commit has its number."""
    lines = [f"pid s {pid(number + 1)}\nget s i{number} v\n" for number in range(1, done + 1)]
    wanted = "".join(f"OK i{number} {pid(number + 1)}\nOK {number}\n" for number in range(1, done + 1))
    run = ended([program] + words, ("open s basic ro\n" + "".join(lines)).encode())
    tell("the cells of all commits", run == (0, f"OK\n{wanted}".encode(), b""), shortened(run))


def whole_run(folder, words, lines):
    """The time of a run that is not killed, over a copy of the store."""
    copy = os.path.join(folder, "copy")
    shutil.copyfile(words[2], copy)
    start = time.monotonic()
    ended([program, *words[:2], copy], "".join(f"{line}\n" for line in lines).encode())
    return time.monotonic() - start


def killed_runs(folder):
    """One store, and runs that are killed at random moments: of their mounts, commits and checkpoints. Each goes on from what the one before has left."""
    words = fresh(["run", written(folder, CELLS), os.path.join(folder, "store")])
    ended([program] + words, b"open s basic rw\ncreate s Cells 0\nflush s\n")
    latest = min(LATEST, whole_run(folder, words, counting(0)))
    chance, done, least, cut = random.Random(1), 0, 0, 0
    for number in range(KILLS):
        lines = counting(done)
        answered = acknowledged(lines, killed(words, lines, chance.uniform(0, latest)))
        left = commits_in(words)
        tell(f"kill {number}", left in (done + answered, done + answered + 1), f"{left} commits, {done} before and {answered} acknowledged")
        if not isinstance(left, int):
            return
        least, cut, done = least + answered, cut + (answered < COMMITS), left
    # Else the moments would tell little.
    tell("kills within runs", cut > KILLS // 2 and least > KILLS // 4, f"{cut} runs were killed, {least} commits acknowledged")
    expect_cells(words, done)


# ---- a full disk


def limited(octets):
    """How a run is started whose files have at most so many octets. A write past them fails, and no signal ends the run."""

    def before():
        signal.signal(signal.SIGXFSZ, signal.SIG_IGN)
        resource.setrlimit(resource.RLIMIT_FSIZE, (octets, octets))

    return {"preexec_fn": before, "restore_signals": False}


def notes_script(first, commits, length):
    """Commits of one note each, of so many letters; a checkpoint behind every fifth."""
    lines = ["open s basic rw"]
    for number in range(first, first + commits):
        lines += [f'create s Notes "{number:0{length}}"', "flush s"]
        if number % 5 == 0:
            lines.append("checkpoint")
    return lines


def expect_notes(name, words, answered, length):
    """There is a note for each commit that was acknowledged, and at most one more; then the disk has room again."""
    status, spoken, complaint = ended([program] + words, b"open s basic ro\ncount s Notes\n")
    seen = spoken.decode().split()
    if (status, complaint, len(seen)) != (0, b"", 3) or int(seen[2]) not in (answered, answered + 1):
        return tell(name, False, (status, spoken, f"{answered} acknowledged"))
    there = int(seen[2])
    script = "".join(f"pid s {pid(number)}\nget s i{number} t\n" for number in range(1, there + 1))
    wanted = "".join(f'OK i{number} {pid(number)}\nOK "{number:0{length}}"\n' for number in range(1, there + 1))
    more = f'create s Notes "more"\nflush s\ncheckpoint\ncount s Notes\n'
    told = f"OK i{there + 1} {pid(there + 1)}\nOK\nOK\nOK {there + 1}\n"
    run = ended([program] + words, f"open s basic rw\n{script}{more}".encode())
    tell(name, run == (0, f"OK\n{wanted}{told}".encode(), b""), shortened(run))


def fill(folder, name, octets, commits, length):
    """A run over a new store for which the disk is too small. It ends with status 6, and speaks the replies to some first lines."""
    words = fresh(["run", written(folder, NOTES), os.path.join(folder, "store")])
    lines = notes_script(1, commits, length)
    run = ended([program] + words, "".join(f"{line}\n" for line in lines).encode(), **limited(octets))
    status, spoken, complaint = run
    replies = spoken.split(b"\n")
    same = (status, complaint, replies[-1]) == (6, b"", b"") and all(reply[:2] == b"OK" for reply in replies[:-1])
    tell(f"{name}: its end", same, shortened(run))
    expect_notes(name, words, acknowledged(lines, spoken), length)


def full_disk(folder):
    """Files that may not grow: no store is made in them, no checkpoint, and no commit for which the journal has no room left. What was acknowledged
    stays, and the store takes more when there is room again."""
    schema, store = written(folder, NOTES), os.path.join(folder, "none")
    run = ended([program, "init", schema, store], **limited(FIRST_SLOT - 1))
    tell("no room for a store", run == (6, b"", b""), shortened(run))
    for pages in (0, 1, 2, 7):
        for part in (0, 1, PAGE // 2):
            octets = FIRST_SLOT + pages * PAGE + part
            fill(folder, f"room for {octets} octets", octets, 100, 3000)
    # Commits alone: the checkpoint comes when the journal is full.
    octets = FIRST_SLOT + 100 * PAGE
    words = fresh(["run", schema, os.path.join(folder, "store")])
    lines = [line for line in notes_script(1, 1000, 7991) if line != "checkpoint"]
    status, spoken, complaint = ended([program] + words, "".join(f"{line}\n" for line in lines).encode(), **limited(octets))
    answered = acknowledged(lines, spoken)
    tell("a full journal and no room", (status, complaint) == (6, b"") and answered > 500, (status, answered))
    expect_notes("what a full journal has", words, answered, 7991)
