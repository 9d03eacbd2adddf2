"""What the words of a call ask for, and schemas that come in pieces through a named pipe."""
import os
import threading

from running import USAGE, contents, cells, ended, examples, fresh, program, shortened, tell, written
from schemas import CELLS

FIRST = b"open s1 basic rw\ncreate s1 Cells 7\nget s1 i1 v\n"
REPLIES = b"OK\nOK i1 000000010000000000000001\nOK 7\n"

# Words that are none of the forms: numbers of rounds that are none, or not from 1 to 1000; words that are missing or too many; other commands.
NONE = [
    ["demo", number, "a.store"]
    for number in ("0", "01", "1001", "+1", "-1", " 1", "1x", "", "1000000000", "4294967297", "1\u0661")
]
NONE += [
    [],
    ["check"],
    ["init", "a.psdl"],
    ["run", "a.psdl"],
    ["demo", "1"],
    ["check", "a.psdl", "a.store"],
    ["init", "a.psdl", "a.store", "more"],
    ["run", "a.psdl", "a.store", "more"],
    ["demo", "1", "a.store", "more"],
    ["Check", "a.psdl"],
    ["RUN", "a.psdl", "a.store"],
    ["runs", "a.psdl", "a.store"],
    ["", "a.psdl", "a.store"],
]


def expect_in(folder, words, status, spoken):
    run = ended([program] + words, b"", cwd=folder)
    tell(f"words {words}", run == (status, spoken, b""), shortened(run))


def plans(folder):
    """Each form, the places of the names in it, and words of no form."""
    for name in ("a.psdl", "check"):
        with open(os.path.join(folder, name), "wb") as file:
            file.write(contents(cells))
    checked = contents(os.path.join(examples, "cells.checked"))
    expect_in(folder, ["check", "a.psdl"], 0, checked)
    expect_in(folder, ["check", "check"], 0, checked)
    expect_in(folder, ["run", "a.psdl", "a.store"], 6, b"")
    expect_in(folder, ["init", "a.psdl", "a.store"], 0, b"")
    expect_in(folder, ["run", "a.psdl", "a.store"], 0, b"")
    expect_in(folder, ["run", "a.store", "a.psdl"], 2, b"schema 3:1048516 S8 TooLong\n")
    expect_in(folder, ["run", "none.psdl", "a.store"], 5, b"")
    expect_in(folder, ["run", "", ""], 5, b"")
    for rounds in (1, 2, 49, 50, 999, 1000):
        replies = 9 * rounds + rounds // 50
        expect_in(folder, ["demo", f"{rounds}", f"{rounds}.store"], 0, b"demo rounds %d replies %d ok %d count %d\n" % (rounds, replies, replies, rounds))
        expect_in(folder, ["demo", f"{rounds}", f"{rounds}.store"], 3, b"store NotEmpty\n")
    for none in NONE:
        expect_in(folder, none, 1, USAGE)


# A text, how a run of it over FIRST ends, and what is spoken: for it, or for its check where that is another.
PIECES = [
    (CELLS, 0, REPLIES),
    (b"storagetype Cell {};", 0, b"OK\nNOHOME\nNOENTRY\n"),
    (b"storagetype Cell;", 2, b"schema 1:13 C5 Incomplete\n"),
    (b"storagetype T { state strong ref<Person> p; };", 2, b"schema 1:23 S6 LeftOut\n"),
    (b"const long Abc = 1; const long ABC = 2;", 2, b"schema 1:32 C1 Redefined\n"),
    (b"struct Q { long x; }; storagetype T { state Q p; }; storagehome H of T { key p; };", 2, b"schema 1:78 C9 KeyType\n"),
]


def feed(pipe, text, size):
    try:
        with open(pipe, "wb", buffering=0) as file:
            for at in range(0, len(text), size):
                file.write(text[at : at + size])
    except OSError:
        pass


def expect_through_pipe(folder, words, text, size, status, spoken):
    pipe = os.path.join(folder, "pipe.psdl")
    os.mkfifo(pipe)
    feeder = threading.Thread(target=feed, args=(pipe, text, size), daemon=True)
    feeder.start()
    run = ended([program] + [word or pipe for word in words], FIRST)
    # A program that did not read the pipe would leave the feeder waiting for a reader.
    os.close(os.open(pipe, os.O_RDONLY | os.O_NONBLOCK))
    feeder.join()
    os.unlink(pipe)
    tell(f"{words[0]} of {text[:60]} by {size}", run == (status, spoken, b""), shortened(run))


def pieces(folder):
    """Whatever the pieces, a text is answered as when it comes as a whole."""
    checked = {CELLS: contents(os.path.join(examples, "cells.checked")), b"storagetype Cell {};": b"storagetype Cell {\n};\n--\n"}
    for text, status, spoken in PIECES:
        store = os.path.join(folder, "cells.store")
        for size in (1, 2, 3, 7):
            fresh(["run", written(folder, text), store])
            expect_through_pipe(folder, ["run", None, store], text, size, status, spoken)
            check = (0, checked[text]) if text in checked else (status, spoken)
            expect_through_pipe(folder, ["check", None], text, size, *check)
