"""What the end of power may leave of a store's file, at each moment of runs: what the last sync made sure of, and of what was written since then
any part in any order, or octets that nobody wrote. Each such image has the commits that were acknowledged, or also the one in progress, by the
reader of docs/STORE.md and by the program; and a run goes on from it. It needs a C compiler."""
import os
import random

from keeping import put
from reading import read_store
from running import contents, ended, fresh, program, shortened, tell, written
from schemas import NUMBERED, pid
from syncs import Watched

# How many runs there are, and how many images of a moment at which octets are open. The program is tried on one image of so many.
RUNS, IMAGES, SHARE = 14, 4, 4
# What a run does: commits, each by how many objects it makes with how many letters at most, and checkpoints.
CHECKPOINT = None
STEPS = [(1, 5), (3, 40), (20, 900), (4, 0), CHECKPOINT, CHECKPOINT]
# The journal has no room for the last one.
LONG = [(255, 7900)] * 3


def note(number, text):
    """The home and the record of a note, by docs/RECORDS.md."""
    return 1, bytes(4) + number.to_bytes(4, "big") + (len(text) + 1).to_bytes(4, "big") + text.encode() + b"\0"


def commit(chance, state, count, most):
    """The lines of a commit over a state, and the state behind it. An object goes or gets another text, and others come."""
    next_serial, objects, lines = state[0], dict(state[1]), ["open s basic rw"]
    text, *texts = [chance.choice("abcdefgh") * chance.randint(most // 2, most) for _ in range(1 + count)]
    if objects:
        serial = chance.choice(list(objects))
        lines += [f"pid s {pid(serial)}", chance.choice(["destroy s i1", f'set s i1 t "{text}"'])]
        objects[serial] = note(serial, text)
        if lines[-1] == "destroy s i1":
            del objects[serial]
    for serial, text in enumerate(texts, next_serial):
        lines.append(f'create s Notes {serial} "{text}"')
        objects[serial] = note(serial, text)
    return [*lines, "flush s", "close s"], (next_serial + count, objects)


def work(chance, state, steps):
    """The lines of a run, and the states from this one on: each commit makes another one."""
    lines, states = [], [state]
    for step in steps:
        more, state = commit(chance, state, *step) if step else (["checkpoint"], state)
        lines += more
        states += [state] * (step is not CHECKPOINT)
    return lines, states


class Disk:
    """What the last sync made sure of, what a read gives, and the writes since then."""

    def __init__(self, octets):
        self.kept, self.content, self.open = octets, bytearray(octets), []

    def call(self, letter, at, octets):
        if letter == "w":
            self.content += bytes(max(0, at - len(self.content)))
            self.content[at : at + len(octets)] = octets
            self.open.append((at, octets))
        elif letter == "s":
            self.kept, self.open = bytes(self.content), []


def left_of(chance, old, new):
    """What is left of a write: nothing, all, its front, its end, some pieces, one octet over and over, or any octets."""
    cut, size = chance.randint(0, len(new)), len(new) // 64 + 1
    ways = [
        lambda: old,
        lambda: new,
        lambda: new[:cut] + old[cut:],
        lambda: old[:cut] + new[cut:],
        lambda: b"".join(chance.choice((old, new))[at : at + size] for at in range(0, len(new), size)),
        lambda: bytes([chance.choice((0, 0x5A, 0xA5, 0xFF))]) * len(new),
        lambda: chance.randbytes(len(new)),
    ]
    return chance.choice(ways)()


def image(chance, disk):
    """What a crash may leave of a disk. Its length is any between that of what was kept and the greatest since then."""
    octets = bytearray(disk.kept) + chance.choice((b"\0", b"\xa5")) * (len(disk.content) - len(disk.kept))
    is_whole = chance.random() < 0.5
    for at, new in chance.sample(disk.open, len(disk.open)):
        old = bytes(octets[at : at + len(new)])
        octets[at : at + len(new)] = chance.choice((old, new)) if is_whole else left_of(chance, old, new)
    del octets[chance.choice((len(disk.kept), len(octets), chance.randint(len(disk.kept), len(octets)))) :]
    return octets


def found(octets):
    """The next serial and the objects that the reader finds, if any."""
    try:
        next_serial, _, objects = read_store(octets)
        return next_serial, objects
    except (AssertionError, IndexError):
        return None


def images(chance, first, calls, lines, states, count=IMAGES, since=0):
    """Images behind each write, each sync and each commit that is acknowledged, from a call on, each with the states of which it has one."""
    disk, replies = Disk(first), 0
    for number, (letter, at, octets) in enumerate(calls):
        disk.call(letter, at, octets)
        replies += letter == "o"
        if number >= since and (letter != "o" or lines[replies - 1] == "flush s"):
            done, is_busy = lines[:replies].count("flush s"), lines[replies : replies + 1] == ["flush s"]
            for _ in range(count if disk.open else 1):
                yield image(chance, disk), states[done : done + 1 + is_busy]


def recorded(watched, words, first, lines, states):
    """A run over a file that holds the first state, with its calls."""
    put(words[2], first)
    run, calls = watched.calls(words, "".join(f"{line}\n" for line in lines).encode())
    replies = run[1].splitlines()
    same = (run[0], run[2], len(replies)) == (0, b"", len(lines)) and all(reply[:2] == b"OK" for reply in replies)
    tell(f"a run of {len(lines)} lines", same, shortened(run))
    return first, calls, lines, states


def expect_served(name, words, octets, state):
    """The program lists the objects of an image, makes a commit and a checkpoint, and the reader finds this too."""
    next_serial, objects = state
    put(words[2], octets)
    listed = "".join(f" {pid(serial)}" for serial in sorted(objects)[:256])
    script = f'open s basic rw\nlist s Notes\ncreate s Notes {next_serial} "more"\nflush s\ncheckpoint\n'
    run = ended([program, *words], script.encode())
    tell(f"the program over {name}", run == (0, f"OK\nOK {len(objects)}{listed}\nOK i1 {pid(next_serial)}\nOK\nOK\n".encode(), b""), shortened(run))
    tell(f"a commit over {name}", found(contents(words[2])) == (next_serial + 1, objects | {next_serial: note(next_serial, "more")}), "another store")


def expect_images(chance, name, words, run):
    """Each image of a run has one of its states. Gives one of them, with its state, for the next run."""
    first, _, _, states = run
    left = first, states[0]
    for number, (octets, may_hold) in enumerate(images(chance, *run)):
        state = found(octets)
        tell(f"image {number} of {name}", state in may_hold, state and state[0])
        if state in may_hold and chance.randrange(SHARE) == 0:
            expect_served(f"image {number} of {name}", words, octets, state)
            left = (octets, state) if chance.random() < 0.1 else left
    return left


def wrong_calls(calls):
    """The calls of programs that leave out a sync behind writes, or make the longest of these writes behind it; and where they begin to be wrong."""
    writes = []
    for number, (letter, _, _) in enumerate(calls):
        writes += [number] * (letter == "w")
        if letter == "s" and writes:
            late = max(writes, key=lambda write: len(calls[write][2]))
            yield f"sync {number} left out", calls[:number] + calls[number + 1 :], number
            yield f"write {late} behind sync {number}", [*calls[:late], *calls[late + 1 : number + 1], calls[late], *calls[number + 1 :]], late
            writes = []


def expect_told(chance, run):
    """Some image of each wrong program has none of its states. Else the images would tell little of this program."""
    first, calls, *rest = run
    for name, wrong, since in wrong_calls(calls):
        tries = images(chance, first, wrong, *rest, 10 * IMAGES, since)
        tell(name, any(found(octets) not in may_hold for octets, may_hold in tries), "no image tells it")


def power_cuts(folder):
    chance, watched = random.Random(1), Watched(folder)
    words = fresh(["run", written(folder, NUMBERED), os.path.join(folder, "store")])
    # A store with a commit in its journal.
    first = recorded(watched, words, contents(words[2]), *work(chance, (1, {}), STEPS[:1]))
    left = contents(words[2]), first[-1][-1]
    steps = [step for size in STEPS[:3] for step in (CHECKPOINT, size)]
    expect_told(chance, recorded(watched, words, left[0], *work(chance, left[1], steps)))
    for number, steps in enumerate([*(chance.choices(STEPS, k=5) for _ in range(RUNS)), LONG]):
        left = expect_images(chance, f"run {number}", words, recorded(watched, words, left[0], *work(chance, left[1], steps)))
