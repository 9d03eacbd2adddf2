"""What all tests share: where the programs are, runs of them under a limit of time, and how many cases passed."""
import os
import signal
import subprocess
import threading

here = os.path.dirname(os.path.abspath(__file__))
top = os.path.dirname(here)
examples = os.path.join(top, "examples")
cells = os.path.join(examples, "cells.psdl")
# `rt ci` leaves the programs there. Other builds of them are tried by naming them.
program = os.environ.get("PSSD") or os.path.join(top, "crates", "pssd", "out", "pssd")
record_cases = os.environ.get("RECORD_CASES") or os.path.join(top, "crates", "record_cases", "out", "record_cases")
journal_cases = os.environ.get("JOURNAL_CASES") or os.path.join(top, "crates", "journal_cases", "out", "journal_cases")
page_cases = os.environ.get("PAGE_CASES") or os.path.join(top, "crates", "page_cases", "out", "page_cases")
recovery_cases = os.environ.get("RECOVERY_CASES") or os.path.join(top, "crates", "recovery_cases", "out", "recovery_cases")
# A run has so many seconds. A build that is not optimised may need more.
LONGEST = float(os.environ.get("PSSD_SECONDS") or 60)
USAGE = b"usage: pssd check SCHEMA | init SCHEMA STORE | run SCHEMA STORE | demo N STORE\n"

results = {"passed": 0, "failed": 0}


def tell(name, same, seen):
    results["passed" if same else "failed"] += 1
    if not same:
        print(f"failed: {name.strip().partition(chr(10))[0][:120]}: {seen}", flush=True)


def each(name, cases):
    """The cases of a page or folder. One without any is a failed case."""
    cases = list(cases)
    if not cases:
        tell(name, False, "it has no cases")
    return cases


def contents(path):
    with open(path, "rb") as file:
        return file.read()


def lines_of(path):
    return contents(path).decode().splitlines()


def kill(child):
    """Ends a child with all that it started."""
    try:
        os.killpg(child.pid, signal.SIGKILL)
    except ProcessLookupError:
        pass


def over(seconds):
    return f"it took more than {seconds} s"


def ended(words, script=b"", longest=LONGEST, **how):
    """The status of a run, what it spoke and what it wrote to standard error. Where it did not start or end, the status says so."""
    how = {"stdin": subprocess.PIPE, "stdout": subprocess.PIPE, "stderr": subprocess.PIPE, "start_new_session": True, **how}
    try:
        child = subprocess.Popen(words, **how)
    except OSError as error:
        return str(error), b"", b""
    try:
        spoken, complaint = child.communicate(script, timeout=longest)
        return child.returncode, spoken, complaint
    except subprocess.TimeoutExpired:
        kill(child)
        return over(longest), *child.communicate()
    finally:
        # Also where the tests themselves are ended.
        if child.poll() is None:
            kill(child)


def shortened(run):
    status, spoken, complaint = run
    return status, spoken[-200:], complaint[-200:]


def fresh(words):
    """The words of a call; where they serve a script, once a new store was made. For a text that is refused there is none."""
    if words[:1] == ["run"] and len(words) == 3:
        schema, store = words[1:]
        if os.path.exists(store):
            os.unlink(store)
        ended([program, "init", schema, store])
    return words


def expect(name, words, script, status, spoken):
    """A run of the program over a script that is there as a whole, and over a new store."""
    run = ended([program] + fresh(words), script)
    tell(name, run == (status, spoken, b""), shortened(run))


def written(folder, text):
    schema = os.path.join(folder, "schema.psdl")
    with open(schema, "wb") as file:
        file.write(text)
    return schema


def expect_answer(folder, name, text, told, status=0, spoken=b"OK\n", script=b"open a basic rw\n"):
    """A text under `check` and under `run`: both refuse it with one line. What `run` comes to else is given."""
    schema = written(folder, text)
    is_refused = told.startswith(b"schema ")
    expect(f"check of {name}", ["check", schema], script, 2 if is_refused else 0, told)
    if is_refused:
        status, spoken = 2, told
    expect(f"run of {name}", ["run", schema, os.path.join(folder, "store")], script, status, spoken)


class Dialogue:
    """A run of the program with which one speaks by pipes. It is ended when its time is over; then it replies no more."""

    def __init__(self, words):
        how = {"stdin": subprocess.PIPE, "stdout": subprocess.PIPE, "stderr": subprocess.PIPE, "start_new_session": True}
        self.child = subprocess.Popen([program] + words, **how)
        self.is_over = False
        self.timer = threading.Timer(LONGEST, self.stop)
        self.timer.start()

    def stop(self):
        self.is_over = True
        kill(self.child)

    def say(self, some):
        """Writes some bytes of the script, where the program still reads."""
        try:
            self.child.stdin.write(some)
            self.child.stdin.flush()
        except OSError:
            pass

    def reply(self):
        return self.child.stdout.readline()

    def end(self):
        """Closes the script. Gives what is spoken from then on and how the run ends."""
        try:
            self.child.stdin.close()
        except OSError:
            pass
        spoken, complaint = self.child.stdout.read(), self.child.stderr.read()
        status = self.child.wait()
        self.timer.cancel()
        self.child.stdout.close()
        self.child.stderr.close()
        return (over(LONGEST) if self.is_over else status), spoken, complaint


def dialogue(words):
    """A dialogue, or why there is none."""
    try:
        return Dialogue(words), ""
    except OSError as error:
        return None, str(error)
