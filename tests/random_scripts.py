"""Random scripts, which the program answers as the model in model/ does. Of the first that it answers otherwise, the shortest script is told that
is found by leaving lines out."""
import collections
import glob
import itertools
import os
import random
import shutil

from model.author import Author
from model.machine import Machine, Store, lines_of
from model.psdl import Schema
from running import contents, each, ended, examples, fresh, here, program, tell

# For each schema so many scripts, of so many runs over one store, of so many lines.
SCRIPTS, RUNS, LINES = 60, 3, 150
# A comment that stands between two runs.
NEXT_RUN = "# the next run"
# Replies that come more than ten times. If one does not, the scripts do not go where they should.
REPLIES = """OK ERR NOSESSION NOTRANSACTION EXISTS KIND NOTX ASSOC OPEN NOENTRY NOHOME NOKEY NOFACTORY NOMEMBER NOTREF BADVALUE READONLY BUSY NOTFOUND GONE
NIL DUPLICATE TOOLARGE ROLLEDBACK""".split()


def text_of(path):
    """A file as a text of Latin-1."""
    return contents(path).decode("latin-1")


def unlike(machine, script, told, end):
    """The first line for which something else is told than the machine replies, with both; None, if there is none. The end is told behind all replies."""
    replies = [(line, reply) for line in lines_of(script) if (reply := machine.reply(line)) is not None]
    for (line, reply), other in zip([*replies, ("the end", end)], told.split("\n")):
        if reply != other:
            return f"{line}: {other}, and by the model {reply}"
    return None


def stored_replies():
    """The model gives the replies to the stored scripts, which were worked out apart from it."""
    for path in each("tests/scripts", sorted(glob.glob(os.path.join(here, "scripts", "*.psdl")))):
        base = path[: -len(".psdl")]
        other = unlike(Machine(Schema(text_of(path)), Store()), text_of(base + ".script"), text_of(base + ".out"), "")
        tell(f"the model over {os.path.basename(base)}.script", other is None, other)


def random_script(schema, chance, kinds):
    """The lines of some runs over one store. Counts the kinds of the replies to them."""
    lines, store = [], Store()
    for _ in range(RUNS):
        author = Author(chance, Machine(schema, store))
        for _ in range(LINES):
            lines.append(author.line())
            kinds.update((author.machine.reply(lines[-1].removesuffix("\r")) or "").split()[:1])
        lines.append(NEXT_RUN)
    return lines


def difference(schema, words, lines):
    """The first line that the program answers otherwise than the model, over a new store."""
    shutil.copyfile(f"{words[2]}.new", words[2])
    store, runs = Store(), [list(run) for is_between, run in itertools.groupby(lines, NEXT_RUN.__eq__) if not is_between]
    for run in runs:
        script = "".join(f"{line}\n" for line in run)
        status, spoken, complaint = ended([program, *words], script.encode("latin-1"))
        other = unlike(Machine(schema, store), script, f"{spoken.decode('latin-1')}status {status} {complaint}", "status 0 b''")
        if other:
            return other
    return None


def shortest(is_wrong, lines):
    """What is left of a script when lines are left out without which it is still wrong."""
    size = len(lines)
    while size := size // 2:
        for at in range(len(lines) - size, -1, -size):
            rest = lines[:at] + lines[at + size :]
            lines = rest if is_wrong(rest) else lines
    return lines


def random_scripts(folder):
    """Random scripts over each schema, up to the first difference."""
    stored_replies()
    kinds = collections.Counter()
    for path in each("tests/model", sorted(glob.glob(os.path.join(here, "model", "*.psdl"))) + [os.path.join(examples, "people.psdl")]):
        base = os.path.basename(path)
        schema, words = Schema(text_of(path)), ["run", path, os.path.join(folder, f"{base}.store")]
        os.rename(fresh(words)[2], f"{words[2]}.new")
        for number in range(SCRIPTS):
            name = f"random script {number} over {base}"
            lines = random_script(schema, random.Random(name), kinds)
            if difference(schema, words, lines):
                lines = shortest(lambda some: difference(schema, words, some), lines)
                return tell(name, False, "\n".join([difference(schema, words, lines), *lines]))
            tell(name, True, "")
    tell("the replies to random scripts", all(kinds[reply] > 10 for reply in REPLIES), kinds)
