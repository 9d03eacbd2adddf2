"""Stores as files: what a script leaves in one, what is mounted of one, how one is refused, and that one call holds it."""
import fcntl
import os

from running import cells, contents, dialogue, each, ended, examples, fresh, here, lines_of, program, shortened, tell, written
from schemas import NOTES

FIRST = b"open s1 basic rw\ncreate s1 Cells 7\nflush s1\n"
FIRST_REPLIES = b"OK\nOK i1 000000010000000000000001\nOK\n"
# What the first flush appends to the journal: a gate, the epoch, the length and the body, and the gate that is closed behind it.
APPENDED = bytes.fromhex("A5 0000000000000001 00000024 0000000000000002 00000001 00000001 0000000000000001 00000008 00000000 00000007 00")
JOURNAL = 262144
# The last serial that is given, in the only home of a schema.
LAST = f"{1:08x}{2**64 - 2:016x}".encode()
SLOTS = 4456448


def octets_of(length, lines):
    """A file of so many octets: each line tells a place and what stands there, and all others are zero."""
    octets = bytearray(length)
    for line in lines:
        at, told = line.split()
        octets[int(at) : int(at) + len(told) // 2] = bytes.fromhex(told)
    return bytes(octets)


def put(path, octets):
    with open(path, "wb") as file:
        file.write(octets)


def expect_run(name, words, script, status, spoken):
    """A run over the store that is there."""
    run = ended([program] + words, script)
    tell(name, run == (status, spoken, b""), shortened(run))


def expect_store(name, store, wanted):
    seen = contents(store)
    if seen == wanted:
        return tell(f"octets of {name}", True, "")
    first = next((at for at, (a, b) in enumerate(zip(seen, wanted)) if a != b), min(len(seen), len(wanted)))
    tell(f"octets of {name}", False, f"{len(seen)} octets for {len(wanted)}, another one at {first}")


def kept_octets(folder):
    """Each script over a new store leaves just these octets in it. A further run of no line leaves them."""
    store = os.path.join(folder, "store")
    names = sorted(name[: -len(".octets")] for name in os.listdir(os.path.join(here, "kept")) if name.endswith(".octets"))
    for name in each("tests/kept", names):
        base = os.path.join(here, "kept", name)
        length, *lines = lines_of(base + ".octets")
        wanted = octets_of(int(length), lines)
        words = fresh(["run", base + ".psdl", store])
        expect_run(f"kept {name}", words, contents(base + ".script"), 0, contents(base + ".out"))
        expect_store(f"kept {name}", store, wanted)
        expect_run(f"again over {name}", words, b"# nothing\n", 0, b"")
        expect_store(f"again over {name}", store, wanted)


def stored_images():
    """The text, the length and the octets of each store that is mounted in tests/stores, and the answer to it."""
    text, length, octets = b"", 0, []
    answers = iter(lines_of(os.path.join(here, "stores", "images.out")))
    for line in contents(os.path.join(here, "stores", "images.in")).split(b"\n"):
        word, _, rest = line.partition(b" ")
        if word == b"text":
            text = rest
        elif word == b"store":
            length, octets = int(rest), []
        elif word == b"octets":
            octets.append(rest.decode())
        elif word == b"mount":
            yield text, octets_of(length, octets), next(answers)


def objects_of(answer):
    """The objects of a store that is mounted, as they are listed: home and serial."""
    rows = [row.split(":") for row in answer.split()[2:]]
    return sorted((int(serial), int(home)) for serial, home, _ in rows)


def homes_of(schema):
    """The storage homes of a text by the lines of its shape: number, number of the base, name."""
    shape = ended([program, "check", schema])[1].partition(b"--\n")[2]
    return [(int(line.split()[1]), int(line.split()[2]), line.split()[3].decode()) for line in shape.splitlines() if line.startswith(b"home ")]


def mounted_images(folder):
    """Stores that another program made, most with something altered: refused by their line, with the file as it was, or mounted, with their
    objects listed by each home without base."""
    store = os.path.join(folder, "store")
    for number, (text, octets, answer) in enumerate(each("tests/stores", stored_images()), 1):
        schema = written(folder, text)
        put(store, octets)
        if not answer.startswith("ok"):
            expect_run(f"image {number}", ["run", schema, store], b"open s basic ro\n", 3, f"store {answer}\n".encode())
            expect_store(f"image {number}", store, octets)
            continue
        homes = homes_of(schema)
        bases = {home: base for home, base, _ in homes}
        script, spoken = b"open s basic ro\n", b"OK\n"
        for home, base, name in homes:
            if base:
                continue
            below = [g for g, _, _ in homes if root_of(g, bases) == home]
            pids = [f" {h:08x}{serial:016x}" for serial, h in objects_of(answer) if h in below]
            script += f"list s {name}\n".encode()
            spoken += f"OK {len(pids)}{''.join(pids[:256])}\n".encode()
        expect_run(f"image {number}", ["run", schema, store], script, 0, spoken)


def root_of(home, bases):
    while bases[home]:
        home = bases[home]
    return home


def kept_files(folder):
    """The file of a store: made, filled, refused, held and missing."""
    store, notes = os.path.join(folder, "store"), written(folder, NOTES)
    expect_run("no file", ["run", cells, store], FIRST, 6, b"")
    tell("run makes no file", not os.path.exists(store), "there is one")
    expect_run("init of a text with a fault", ["init", notes, store], b"", 0, b"")
    os.unlink(store)
    fresh(["run", cells, store])
    empty = contents(store)
    tell("a new store", (len(empty), empty[:1]) == (SLOTS, b"\xa5"), len(empty))
    expect_run("init of a store", ["init", cells, store], b"", 3, b"store NotEmpty\n")
    expect_run("demo over a store", ["demo", "1", store], b"", 3, b"store NotEmpty\n")
    expect_store("a store that is not made again", store, empty)
    expect_run("the first run", ["run", cells, store], FIRST, 0, FIRST_REPLIES)
    expect_store("the first flush", store, empty[:JOURNAL] + APPENDED + empty[JOURNAL + len(APPENDED) :])
    expect_uncounted(store, contents(store))
    expect_last_serial(folder, empty)
    expect_run("the second run", ["run", cells, store], b"open s1 basic rw\npid s1 000000010000000000000001\nget s1 i1 v\ncreate s1 Cells 8\n", 0, b"OK\nOK i1 000000010000000000000001\nOK 7\nOK i2 000000010000000000000002\n")
    expect_run("another text", ["run", notes, store], FIRST, 3, b"store ShapeDiffers 1\n")
    expect_run("checkpoint", ["run", cells, store], b"checkpoint\n", 0, b"OK\n")
    damaged = bytearray(contents(store))
    damaged[SLOTS] ^= 1
    put(store, damaged)
    expect_run("a damaged page", ["run", cells, store], FIRST, 3, b"store Damaged 4456448 Page\n")
    expect_store("a damaged page", store, bytes(damaged))
    put(store, bytes(10))
    expect_run("ten octets", ["run", cells, store], FIRST, 3, b"store NotAStore\n")
    expect_run("init over ten octets", ["init", cells, store], b"", 3, b"store NotEmpty\n")
    expect_run("a folder as store", ["run", cells, folder], FIRST, 6, b"")
    expect_run("a store in no folder", ["init", cells, os.path.join(folder, "none", "store")], b"", 6, b"")
    expect_run("an empty file", ["init", cells, made_empty(folder)], b"", 0, b"")
    closed = os.path.join(folder, "closed")
    put(closed, empty)
    os.chmod(closed, 0o444)
    expect_run("a file that is not written", ["run", cells, closed], FIRST, 6 if os.geteuid() else 0, b"" if os.geteuid() else FIRST_REPLIES)


def expect_uncounted(store, octets):
    """A record of the journal does not count behind a gate that is not open, nor under another epoch."""
    for name, at, some in [("a gate that is not open", JOURNAL, b"\x5a"), ("another epoch", JOURNAL + 8, b"\x09")]:
        put(store, octets[:at] + some + octets[at + 1 :])
        expect_run(name, ["run", cells, store], b"open s basic ro\ncount s Cells\n", 0, b"OK\nOK 0\n")
    put(store, octets)


def expect_last_serial(folder, empty):
    """A store whose next serial is the last but one: that one is given, and no other, also by the next run. A factory makes no more than `create`."""
    store = os.path.join(folder, "last")
    script = b"open s1 basic rw\ncreate s1 Cells 7\ncreate s1 Cells 8\nflush s1\ncount s1 Cells\n"
    put(store, before_last(empty))
    expect_run("the last serial", ["run", cells, store], script, 0, b"OK\nOK i1 " + LAST + b"\nSERIALS\nOK\nOK 1\n")
    expect_run("behind the last serial", ["run", cells, store], script, 0, b"OK\nSERIALS\nSERIALS\nOK\nOK 1\n")
    made = os.path.join(folder, "made.psdl")
    put(made, b"storagetype Cell{state long v;};storagehome Cells of Cell{factory make(v);};")
    fresh(["run", made, store])
    put(store, before_last(contents(store)))
    script = script.replace(b"create s1 Cells", b"make s1 Cells make")
    expect_run("the last serial by a factory", ["run", made, store], script, 0, b"OK\nOK i1 " + LAST + b"\nSERIALS\nOK\nOK 1\n")
    expect_run("behind the last serial by a factory", ["run", made, store], script, 0, b"OK\nSERIALS\nSERIALS\nOK\nOK 1\n")


def before_last(octets):
    """The octets of a store whose next serial is the last one that is given."""
    return octets[:16] + (2**64 - 2).to_bytes(8, "big") + octets[24:]


def made_empty(folder):
    path = os.path.join(folder, "empty")
    put(path, b"")
    return path


def held_files(folder):
    """While a call holds the store's file, another one has no disk; it speaks nothing and leaves the file. Afterwards the file is free."""
    store = os.path.join(folder, "store")
    talk, why = dialogue(fresh(["run", cells, store]))
    if not talk:
        return tell("a store that is held", False, why)
    talk.say(b"open s1 basic rw\n")
    tell("the first call", talk.reply() == b"OK\n", "no reply")
    before = contents(store)
    expect_run("a store that is held", ["run", cells, store], FIRST, 6, b"")
    expect_run("init of a store that is held", ["init", cells, store], b"", 6, b"")
    expect_run("a demo over a store that is held", ["demo", "1", store], b"", 6, b"")
    expect_store("a store that is held", store, before)
    talk.say(FIRST[len(b"open s1 basic rw\n") :])
    tell("the first call goes on", (talk.reply(), talk.reply()) == (b"OK i1 000000010000000000000001\n", b"OK\n"), "other replies")
    tell("the first call ends", talk.end() == (0, b"", b""), "otherwise")
    expect_run("a store that is free again", ["run", cells, store], b"open s basic ro\ncount s Cells\n", 0, b"OK\nOK 1\n")
    with open(store, "rb") as file:
        fcntl.flock(file, fcntl.LOCK_EX | fcntl.LOCK_NB)
        expect_run("a store that another program holds", ["run", cells, store], FIRST, 6, b"")


def people_script():
    """2,000 people, made in 100 transactions of 20 by two sessions in turn, with a checkpoint after the fiftieth."""
    lines, spoken = ["open s1 tx rw", "open s2 tx rw"], ["OK", "OK"]
    for number in range(100):
        session = f"s{number % 2 + 1}"
        lines += [f"begin t SERIALIZABLE", f"start {session} t"]
        spoken += ["OK", "OK"]
        for serial in range(20 * number + 1, 20 * number + 21):
            lines.append(f'make {session} PersonHomeBase make "{serial}" "n{serial}"')
            spoken.append(f" 00000001{serial:016x}")
        lines += [f"end {session} ok", "commit t"]
        spoken += ["OK", "OK"]
        if number == 49:
            lines.append("checkpoint")
            spoken.append("OK")
    return "".join(f"{line}\n" for line in lines).encode(), spoken


def kept_people(folder):
    """Many people, and a second run over them; and what a demonstration leaves is a store of examples/people.psdl."""
    people, store = os.path.join(examples, "people.psdl"), os.path.join(folder, "store")
    script, wanted = people_script()
    status, spoken, complaint = ended([program] + fresh(["run", people, store]), script)
    replies = spoken.decode().splitlines()
    same = len(replies) == len(wanted) and all(reply.endswith(want) and reply.startswith("OK") for reply, want in zip(replies, wanted))
    tell("2,000 people", (status, complaint) == (0, b"") and same, (status, replies[-5:]))
    pids = "".join(f" 00000001{serial:016x}" for serial in range(1, 257))
    again = b'open s1 basic ro\ncount s1 People.persons\ncreate s1 PersonHomeBase "x" "y" nil\nlist s1 PersonHomeBase\nfind s1 PersonHomeBase ssn "2000"\n'
    expect_run("2,000 people again", ["run", people, store], again, 0, f"OK\nOK 2000\nREADONLY\nOK 2000{pids}\nOK i1 0000000100000000000007d0\n".encode())
    os.unlink(store)
    expect_run("a demonstration", ["demo", "100", store], b"", 0, b"demo rounds 100 replies 902 ok 902 count 100\n")
    bosses = b'open s basic ro\ncount s People.persons\nfind s PersonHomeBase ssn "100"\nget s i1 name\nfollow s i1 boss\nfind s PersonHomeBase ssn "1"\nfollow s i3 boss\n'
    number = 1
    for _ in range(100):
        number = (1103515245 * number + 12345) % 2**31
    boss = number % 99 + 1
    told = f'OK\nOK 100\nOK i1 000000010000000000000064\nOK "n100"\nOK i2 00000001{boss:016x}\n'
    first = 2 if boss == 1 else 3
    told += f"OK i{first} 000000010000000000000001\n" + ("NIL\n" if first == 3 else "NOENTRY\n")
    expect_run("what it leaves", ["run", people, store], bosses, 0, told.encode())
