"""Dialogues by pipes, and runs whose standard descriptors are closed."""
import itertools
import os
import re
import shutil
import subprocess

from running import USAGE, cells, contents, dialogue, each, ended, examples, fresh, program, shortened, tell


def is_answered(line):
    """Whether a line of a script has a reply: it has a word, and its first word is no comment."""
    words = line.replace(b"\t", b" ").rstrip(b"\n").removesuffix(b"\r").split(b" ")
    words = [word for word in words if word]
    return bool(words) and not words[0].startswith(b"#")


# ---- a reply is spoken before more of the script is read


def converse(name, words, script, spoken):
    """Writes a script line by line, each once the reply to the line in front of it was read."""
    talk, why = dialogue(fresh(words))
    if not talk:
        return tell(name, False, why)
    heard, reply = b"", b"-"
    for line in re.findall(rb"[^\n]*\n|[^\n]+", script):
        talk.say(line)
        if reply and line.endswith(b"\n") and is_answered(line):
            reply = talk.reply()
            heard += reply
    status, rest, complaint = talk.end()
    run = (status, heard + rest, complaint)
    tell(f"{name} line by line", run == (0, spoken, b""), shortened(run))


def exchange(name, words, parts):
    """Writes parts of a script. Each stands beside the replies that come before any more is written."""
    talk, why = dialogue(fresh(words))
    if not talk:
        return tell(name, False, why)
    heard = []
    for part, replies in parts:
        talk.say(part)
        heard.append([talk.reply() for _ in replies])
    status, rest, complaint = talk.end()
    seen = (status, heard, rest, complaint)
    tell(name, seen == (0, [replies for _, replies in parts], b"", b""), seen)


OPENED = (b"open s basic rw\n", [b"OK\n"])
CREATED = (b"create s Cells 7\n", [b"OK i1 000000010000000000000001\n"])
EXCHANGES = {
    "a reply to each line": [OPENED, CREATED, (b"get s i1 v\n", [b"OK 7\n"])],
    "two lines at once": [OPENED, (b"create s Cells 7\nget s i1 v\n", [CREATED[1][0], b"OK 7\n"])],
    "a line and a half": [(b"open s basic rw\ncrea", [b"OK\n"]), (b"te s Cells 7\n", CREATED[1])],
    "lines without a reply": [(b"\n# one\n \t\nopen s basic rw\n", [b"OK\n"]), (b"#\nget s i1 v\n", [b"NOENTRY\n"])],
    "CR and LF apart": [(b"open s basic rw\r", []), (b"\n", [b"OK\n"])],
    "a line that is too long": [(b"x" * 70000 + b"\n", [b"ERR 65537\n"]), OPENED],
    }


def exchanges(words):
    for name, parts in each("exchanges", EXCHANGES.items()):
        exchange(name, words, parts)


# ---- closed descriptors

SCRIPT = b"open s basic rw\ncreate s Cells 7\nget s i1 v\n"
REPLIES = b"OK\nOK i1 000000010000000000000001\nOK 7\n"
SHOWN = b"demo rounds 3 replies 27 ok 27 count 3\n"
CLOSED = {0: "<&-", 1: ">&-", 2: "2>&-"}
OPEN = {0: "<script", 1: ">spoken", 2: "2>complaint"}


def put(folder, name, some):
    with open(os.path.join(folder, name), "wb") as file:
        file.write(some)


def run_closed(folder, name, words, closed, status, spoken, script=SCRIPT):
    """A run with some of the descriptors 0, 1 and 2 closed. The others are files, and so is that in which the shell tells the status."""
    for path, some in [("script", script), ("spoken", b""), ("complaint", b""), ("status", b"")]:
        put(folder, path, some)
    redirections = " ".join((CLOSED if number in closed else OPEN)[number] for number in range(3))
    ended(["bash", "-c", f'"$@" {redirections}; echo $? >status', "bash", program] + words, cwd=folder)
    seen = tuple(contents(os.path.join(folder, path)) for path in ("status", "spoken", "complaint"))
    tell(f"{name}, closed: {sorted(closed)}", seen == (b"%d\n" % status, spoken, b""), seen)


def run_each(folder, closed, checked):
    """A run without standard input cannot read its script (5), one without standard output cannot speak (7). The store is as it was: no line
    of the script commits."""
    run = ["run", "cells.psdl", "store"]
    reads, speaks = 0 not in closed, 1 not in closed
    run_closed(folder, "run", run, closed, *((5, b"") if not reads else (0, REPLIES) if speaks else (7, b"")))
    run_closed(folder, "run of no line", run, closed, 0 if reads else 5, b"", b"")
    run_closed(folder, "check", ["check", "cells.psdl"], closed, *((0, checked) if speaks else (7, b"")))
    run_closed(folder, "no words", [], closed, *((1, USAGE) if speaks else (7, b"")))
    run_closed(folder, "no schema file", ["run", "missing.psdl", "store"], closed, 5, b"")


def make_each(folder, closed):
    """A store is made whatever is closed, and has no octet of what is spoken; so is that of a demonstration."""
    made = os.path.join(folder, "made")
    run_closed(folder, "init", ["init", "cells.psdl", "made"], closed, 0, b"")
    store = contents(made)
    run_closed(folder, "init of a store", ["init", "cells.psdl", "made"], closed, *((3, b"store NotEmpty\n") if 1 not in closed else (7, b"")))
    tell(f"made with {closed} closed", (len(store), contents(made)) == (4456448, store), len(store))
    os.unlink(made)
    run_closed(folder, "demo", ["demo", "3", "made"], closed, *((0, SHOWN) if 1 not in closed else (7, b"")))
    tell(f"shown with {closed} closed", contents(made) == contents(os.path.join(folder, "shown")), "another store")
    os.unlink(made)


def without_null_device(folder):
    """Below a root folder that has no null device nothing is done, and the status is 7. None but root may change that folder."""
    if os.geteuid():
        return
    root, name = os.path.join(folder, "root"), os.path.abspath(program)
    libraries = subprocess.run(["ldd", name], stdout=subprocess.PIPE, text=True, check=True).stdout
    for needed in [name, *re.findall(r"(/\S+) \(", libraries)]:
        os.makedirs(os.path.dirname(root + needed), exist_ok=True)
        shutil.copy(needed, root + needed)
    put(root, "cells.psdl", contents(cells))
    for words in (["check", "/cells.psdl"], ["init", "/cells.psdl", "/made"], []):
        run = ended(["chroot", root, name, *words])
        made = os.path.exists(os.path.join(root, "made"))
        tell(f"without a null device: {words[:1]}", (run, made) == ((7, b"", b""), False), (run, made))


def closed_descriptors(folder):
    """Each descriptor alone, two of them, and all. No file that a run opens gets what it speaks."""
    put(folder, "cells.psdl", contents(cells))
    ended([program, "init", "cells.psdl", "store"], cwd=folder)
    ended([program, "demo", "3", "shown"], cwd=folder)
    store = contents(os.path.join(folder, "store"))
    checked = contents(os.path.join(examples, "cells.checked"))
    for size in (1, 2, 3):
        for closed in itertools.combinations((0, 1, 2), size):
            run_each(folder, closed, checked)
            make_each(folder, closed)
    for name, before in [("cells.psdl", contents(cells)), ("store", store)]:
        after = contents(os.path.join(folder, name))
        tell(f"{name} behind runs with closed descriptors", after == before, after[:200])
    without_null_device(folder)
