"""Runs to which one request for memory is refused, one after the other each that a run makes. It needs a C compiler, and is outside the gate."""
import os
import shutil
import subprocess

from running import ended, here, program, tell, written
from schemas import KEYED

# Three commits, with a checkpoint behind the second.
SCRIPT = b"open s basic rw\ncreate s Cells 7\nflush s\ncreate s Cells 8\nflush s\ncheckpoint\ncreate s Cells 9\nflush s\ncount s Cells\n"
REPLIES = b"OK\nOK i1 000000010000000000000001\nOK\nOK i2 000000010000000000000002\nOK\nOK\nOK i3 000000010000000000000003\nOK\nOK 3\n"
COMMITS = (2, 4, 7)


def counted(words, store):
    """How many cells a store has, by a run to which nothing is refused."""
    status, spoken, complaint = ended([program, *words, store], b"open s basic ro\ncount s Cells\n")
    return int(spoken.split()[2]) if (status, complaint) == (0, b"") else f"status {status}, {spoken[-200:]}"


def with_refused(shim, number, words, **more):
    """A run to which the request with this number is refused; 0 is none."""
    return ended([program, *words], SCRIPT, env={**os.environ, "LD_PRELOAD": shim, "REFUSED": str(number), **more})


def refused_memory(folder):
    shim = os.path.join(folder, "refused.so")
    subprocess.run(["cc", "-O2", "-shared", "-fPIC", "-o", shim, os.path.join(here, "refused.c"), "-ldl"], check=True)
    schema = written(folder, KEYED)
    first, store, count = (os.path.join(folder, name) for name in ("first", "store", "count"))
    made = ended([program, "init", schema, first])
    tell("a store is made", made == (0, b"", b""), made)
    shutil.copyfile(first, store)
    whole = with_refused(shim, 0, ["run", schema, store], COUNTED=count)
    tell("a run to which nothing is refused", whole == (0, REPLIES, b""), whole)
    with open(count) as told:
        requests = int(told.read())
    for number in range(1, requests + 1):
        shutil.copyfile(first, store)
        status, spoken, complaint = with_refused(shim, number, ["run", schema, store])
        is_whole = status == 0 and spoken == REPLIES
        is_stopped = status == 4 and REPLIES.startswith(spoken) and spoken[-1:] in (b"", b"\n")
        tell(f"request {number} of {requests} is refused", complaint == b"" and (is_whole or is_stopped), (status, spoken, complaint))
        answered = spoken.count(b"\n")
        done = sum(answered > commit for commit in COMMITS)
        kept = counted(["run", schema], store)
        tell(f"what is kept where request {number} is refused", kept == done, (kept, done))
