"""What `./pssd` does in front of the program: it builds with `rt ci`, tells of it, and builds again where a source is newer. A script
stands in place of `rt`, which says what `rt ci` would say and makes a program that tells its words."""
import os
import pty
import re
import shutil
import subprocess
import time

from running import LONGEST, contents, ended, shortened, tell, top

CRATES = "low:\nleft: low itoa\nright: low\npssd: left right\n"

# Each run leaves a line in `runs`. `mode` is a file beside it, with what is to happen.
RT = """#!/usr/bin/env bash
[ "$*" = ci ] || { echo "rt: called with $*" >&2; exit 9; }
here=HERE
echo ci >>"$here/runs"
[ "$(cat)" = "" ] || { echo "rt: something was left of the standard input"; exit 9; }
say() { echo "rt: $*"; }
proves() { sleep 0.2; echo "== $1"; echo "logic=proved functions=1"; say "$1 proved"; }
mode="$(cat "$here/mode" 2>/dev/null)"
say "low is kept: an earlier run on this machine proved the same files over the same libraries"
proves right
echo "a complaint" >&2
if [ "$mode" = fails ]; then
    say "left NOT PROVED"
    say "pssd NOT PROVED: its library left failed"
    say "FAILED: left pssd"
    echo "2 passed, 2 failed"
    exit 1
fi
proves left
say "left: its tests are proved"
say "left: trying its must-fail edits (2)"
[ "$mode" != changes ] || { sleep 0.1; echo "// more" >>crates/left/src/lib.rt; sleep 0.1; }
proves pssd
mkdir -p crates/pssd/out
printf '#!/bin/sh\\necho "words: $*"\\ncat\\nexit 7\\n' >crates/pssd/out/pssd
chmod +x crates/pssd/out/pssd
[ "$mode" != tests-fail ] || { say "FAILED: left (tests)"; echo "3 passed, 1 failed"; exit 1; }
say "ok; handles allowed: none"
echo "6 passed, 0 failed"
"""


def programs_in(folder):
    """A folder with the programs of the machine, but for any `rt`."""
    programs = os.path.join(folder, "programs")
    if not os.path.isdir(programs):
        os.mkdir(programs)
        for place in ("/usr/bin", "/bin"):
            for name in os.listdir(place):
                if name != "rt" and not os.path.lexists(os.path.join(programs, name)):
                    os.symlink(os.path.join(place, name), os.path.join(programs, name))
    return programs


class Copy:
    """A copy of the launcher over four small crates, with a folder where that `rt` stands."""

    def __init__(self, folder, name):
        self.at = os.path.join(folder, name)
        self.programs = programs_in(folder)
        self.bin = os.path.join(self.at, "bin")
        os.makedirs(self.bin)
        shutil.copy(os.path.join(top, "pssd"), self.at)
        for line in CRATES.splitlines():
            source = os.path.join(self.at, "crates", line.partition(":")[0], "src")
            os.makedirs(source)
            self.put(os.path.join(source, "lib.rt"), "fn one() {}\n")
        self.put("crates.txt", CRATES)
        self.put("HANDLES", "Handles allowed: none.\n")
        self.set_back(100)
        self.put("bin/rt", RT.replace("HERE", self.at))
        os.chmod(os.path.join(self.bin, "rt"), 0o755)

    def path(self, name):
        return os.path.join(self.at, name)

    def put(self, name, text):
        with open(self.path(name), "w") as file:
            file.write(text)

    def has(self, name):
        return contents(self.path(name)).decode() if os.path.exists(self.path(name)) else ""

    def set_back(self, seconds):
        """Gives each file and folder a time before now."""
        then = time.time() - seconds
        for at, _, names in os.walk(self.at):
            for path in [at] + [os.path.join(at, name) for name in names]:
                os.utime(path, (then, then))

    def runs(self):
        return self.has("runs").count("ci\n")

    def environment(self):
        return {**os.environ, "PATH": f"{self.bin}:{self.programs}", "TMPDIR": self.at}

    def start(self, script=b"", words=("a", "b c"), **how):
        return ended([self.path("pssd"), *words], script, env=self.environment(), cwd="/", **how)


LEFT = r"pssd: about \d+ (s|min) left; "
RAN = (7, b"words: a b c\nscript")


def tells_of_building(folder):
    copy = Copy(folder, "first")
    status, spoken, complaint = run = copy.start(b"script")
    said = complaint.decode()
    wanted = [
        r"pssd: the program is not built yet: it is proved and built first\n",
        r"pssd: from nothing this needs .* cores, .* memory .* disk, .*; this machine has \d+ cores, \d+ GB of memory and \d+ GB of free disk\n",
        r"pssd: what is proved is kept on this machine, .*\n",
        LEFT + r"proving crate 1 of 4, low\n",
        LEFT + r"proving crates 2 to 3 of 4, (left, right|right, left)\n",
        LEFT + r"proving crate 3 of 4, left; right took \d+ s\n",
        LEFT + r"proving crate 4 of 4, pssd; left took \d+ s, right took \d+ s\n(.*\n)?",
        LEFT + r"all 4 crates are proved, now edits, tests and programs; pssd took \d+ s, left took \d+ s\n",
        r"pssd: 6 passed, 0 failed\n",
    ]
    tell("the first start builds, and tells of it", re.fullmatch("".join(wanted), said) is not None, said)
    tell("the words, the script and the status are the program's", (status, spoken) == RAN, shortened(run))
    tell("no log is left", not [name for name in os.listdir(copy.at) if name.startswith("pssd-build")], os.listdir(copy.at))
    run = copy.start(b"script")
    tell("the next start builds nothing and tells nothing", run == (*RAN, b"") and copy.runs() == 1, (shortened(run), copy.runs()))


def builds_again(folder):
    copy = Copy(folder, "again")
    copy.start()
    for name in ["crates/low/src/lib.rt", "crates/pssd/src/lib.rt", "crates.txt", "HANDLES"]:
        copy.set_back(100)
        before = copy.runs()
        os.utime(copy.path(name))
        run = copy.start(b"script")
        told = b"a source is newer than the program" in run[2]
        tell(f"a newer {name} builds again", run[:2] == RAN and told and copy.runs() == before + 1, (shortened(run), copy.runs()))
    copy.set_back(100)
    before = copy.runs()
    os.makedirs(copy.path("crates/left/proofs"))
    copy.start()
    tell("a folder of proofs that is new builds again", copy.runs() == before + 1, copy.runs())
    before = copy.runs()
    copy.put("README.md", "more\n")
    copy.start()
    tell("other files build nothing", copy.runs() == before, copy.runs())


def meets_a_change(folder):
    copy = Copy(folder, "meanwhile")
    copy.put("mode", "changes")
    first = copy.start()
    copy.put("mode", "")
    copy.start()
    told = b"changed meanwhile" in first[2]
    tell("a source that was changed while it was built builds again", told and copy.runs() == 2, (shortened(first), copy.runs()))


def tells_of_failure(folder):
    for mode, last in [("fails", "2 passed, 2 failed"), ("tests-fail", "3 passed, 1 failed")]:
        copy = Copy(folder, mode)
        copy.put("mode", mode)
        status, spoken, complaint = run = copy.start()
        lines = complaint.decode().splitlines()
        log = lines[-1].removeprefix("pssd: the whole log is ")
        whole = contents(log).decode() if os.path.exists(log) else ""
        same = (status, spoken) == (120, b"") and lines[-2] == last and "a complaint" in lines
        same = same and whole.endswith(f"{last}\n") and "a complaint\n" in whole
        tell(f"a failed build ends with 120, the log's end and its name: {mode}", same, shortened(run))
        status, spoken, _ = run = copy.start()
        tell(f"and so does the next start: {mode}", (status, spoken) == (120, b"") and copy.runs() == 2, (shortened(run), copy.runs()))


def builds_once(folder):
    copy = Copy(folder, "at-once")
    words = [copy.path("pssd"), "a", "b c"]
    how = {"stdin": subprocess.DEVNULL, "stdout": subprocess.PIPE, "stderr": subprocess.PIPE, "env": copy.environment(), "cwd": "/"}
    starts = [subprocess.Popen(words, **how) for _ in range(3)]
    told = []
    for start in starts:
        try:
            spoken, complaint = start.communicate(timeout=LONGEST)
        except subprocess.TimeoutExpired:
            start.kill()
            spoken, complaint = start.communicate()
        told.append((start.returncode, spoken, b"waiting for it" in complaint))
    same = sorted(told) == [(7, b"words: a b c\n", False), (7, b"words: a b c\n", True), (7, b"words: a b c\n", True)]
    tell("three starts at once build once", same and copy.runs() == 1, (told, copy.runs()))


def does_without_rt(folder):
    copy = Copy(folder, "without")
    copy.start()
    copy.set_back(100)
    os.utime(copy.path("crates/low/src/lib.rt"))
    os.remove(copy.path("bin/rt"))
    run = copy.start(b"script")
    tell("without rt the program is run as it is", run == (*RAN, b"") and copy.runs() == 1, shortened(run))
    os.remove(copy.path("crates/pssd/out/pssd"))
    run = copy.start(b"script")
    wanted = (120, b"", b"pssd: the program is not built, and rt, which proves and builds it, is not on this machine\n")
    tell("without rt and program it says so", run == wanted, shortened(run))


def rewrites_one_line(folder):
    """On a terminal, where the machine gives one."""
    copy = Copy(folder, "terminal")
    try:
        master, slave = pty.openpty()
    except OSError as error:
        return print(f"note: no terminal, so that is not tried: {error}")
    status, spoken, _ = copy.start(b"script", stderr=slave)
    os.close(slave)
    seen = b""
    try:
        while some := os.read(master, 65536):
            seen += some
    except OSError:
        pass
    os.close(master)
    lines = seen.decode().replace("\r\n", "\n").split("\n")
    parts = [part for line in lines if line.startswith("\r") for part in line.split("\r")[1:]]
    is_short = all(part.endswith("\x1b[K") and len(part) < 80 + len("\x1b[K") for part in parts)
    same = (status, spoken) == RAN and len(lines) == 5 and len(parts) >= 6 and is_short
    tell("a terminal has one line that is written again", same, (status, spoken, lines))


def launcher(folder):
    for part in [tells_of_building, builds_again, meets_a_change, tells_of_failure, builds_once, does_without_rt, rewrites_one_line]:
        part(folder)
