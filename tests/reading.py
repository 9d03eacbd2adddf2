"""A reader of stores that knows docs/STORE.md and nothing else: what it finds in the file of a store is compared with what the program answers over it."""
import os

from keeping import people_script
from running import contents, each, ended, examples, fresh, here, program, shortened, tell

AREA, JOURNAL, SLOTS, PAGE = 131072, 262144, 4456448, 16384
SHAPE, SLOT_LIST = 32, 65568
OPEN = 0xA5


def number(octets, at, width):
    return int.from_bytes(octets[at : at + width], "big")


def roots(octets):
    """The places of the areas in which a root stands."""
    return [at for at in (0, AREA) if octets[at] == OPEN and octets[at + 1 : at + 8] == b"PSSROOT"]


def current_root(octets):
    found = roots(octets)
    if len(found) == 2:
        first, second = (number(octets, at + 8, 8) for at in found)
        return found[0] if first == (second + 1) % 2**64 else found[1]
    return found[0]


def page_objects(octets, slot):
    """The objects in a page: serial, home and record of each."""
    at = SLOTS + PAGE * slot
    assert octets[at : at + 8] == b"PSSPAGE1" and number(octets, at + 16, 4) == slot
    place, end = at + 40, at + 40 + number(octets, at + 24, 4)
    for _ in range(number(octets, at + 20, 4)):
        assert place + 16 <= end
        length = number(octets, place + 4, 4)
        yield number(octets, place + 8, 8), number(octets, place, 4), octets[place + 16 : place + 16 + length]
        place += 16 + length
    assert place == end


def bodies(octets, epoch):
    """The bodies of the journal under an epoch."""
    gate = JOURNAL
    while gate < SLOTS and octets[gate] == OPEN and number(octets, gate + 1, 8) == epoch:
        length = number(octets, gate + 9, 4)
        yield octets[gate + 13 : gate + 13 + length]
        gate += 13 + length


def changes(body):
    """The changes of a body: serial, home and record of each, which has no octets where the object is removed."""
    at = 12
    for _ in range(number(body, 8, 4)):
        assert at + 16 <= len(body)
        length = number(body, at + 12, 4)
        yield number(body, at + 4, 8), number(body, at, 4), body[at + 16 : at + 16 + length]
        at += 16 + length
    assert at == len(body)


def read_store(octets):
    """What a store stands for: its next serial, its shape, and its objects by serial, each with home and record."""
    root = current_root(octets)
    epoch, next_serial = number(octets, root + 8, 8), number(octets, root + 16, 8)
    objects = {}
    for index in range(number(octets, root + 28, 4)):
        slot = number(octets, root + SLOT_LIST + 4 * index, 4)
        objects |= {serial: (home, record) for serial, home, record in page_objects(octets, slot)}
    for body in bodies(octets, epoch):
        next_serial = number(body, 0, 8)
        for serial, home, record in changes(body):
            objects.pop(serial, None)
            if record:
                objects[serial] = home, record
    return next_serial, octets[root + SHAPE : root + SHAPE + number(octets, root + 24, 4)], objects


def homes_in(shape):
    """The storage homes of a shape by number: number of the base and name."""
    lines = [line.split() for line in shape.decode().splitlines() if line.startswith("home ")]
    return {int(line[1]): (int(line[2]), line[3]) for line in lines}


def expect_same(name, schema, store):
    """The program lists the objects that the reader finds, and gives the next serial."""
    next_serial, shape, objects = read_store(contents(store))
    shape_told = ended([program, "check", schema])[1].partition(b"\n--\n")[2]
    tell(f"shape of {name}", shape == shape_told, shape[:200])
    script, wanted = [], []
    for home, (base, word) in homes_in(shape).items():
        below = {home}
        for heir, (its_base, _) in homes_in(shape).items():
            below |= {heir} if its_base in below else set()
        pids = [f" {objects[serial][0]:08x}{serial:016x}" for serial in sorted(objects) if objects[serial][0] in below]
        script.append(f"list s {word}")
        wanted.append(f"OK {len(pids)}{''.join(pids[:256])}")
    run = ended([program, "run", schema, store], "".join(f"{line}\n" for line in ["open s basic ro", *script]).encode())
    tell(f"objects of {name}", run == (0, "".join(f"{line}\n" for line in ["OK", *wanted]).encode(), b""), shortened(run))
    return next_serial, objects


def person(octets):
    """Ssn, name and boss of a person, as docs/RECORDS.md tells them: strings behind their lengths, each with a zero octet; a home and a serial."""
    at, told = 1, []
    for _ in range(2):
        at += -at % 4
        length = number(octets, at, 4)
        told.append(octets[at + 4 : at + 3 + length].decode())
        at += 4 + length
    at += -at % 4
    home = number(octets, at, 4)
    at += 4
    at += -at % 8
    assert len(octets) == at + 8
    return told[0], told[1], (home, number(octets, at, 8))


def read_stores(folder):
    """Stores of other scripts, one of 2,000 people, and one of a demonstration with its checkpoints."""
    store = os.path.join(folder, "store")
    names = sorted(name[: -len(".octets")] for name in os.listdir(os.path.join(here, "kept")) if name.endswith(".octets"))
    for name in each("tests/kept", names):
        base = os.path.join(here, "kept", name)
        ended([program] + fresh(["run", base + ".psdl", store]), contents(base + ".script"))
        expect_same(name, base + ".psdl", store)
    people = os.path.join(examples, "people.psdl")
    ended([program] + fresh(["run", people, store]), people_script()[0])
    next_serial, objects = expect_same("2,000 people", people, store)
    seen = [person(record) for _, record in objects.values()]
    tell("2,000 people are read", (next_serial, seen) == (2001, [(f"{n}", f"n{n}", (0, 0)) for n in range(1, 2001)]), seen[:3])
    os.unlink(store)
    ended([program, "demo", "120", store])
    next_serial, objects = expect_same("a demonstration", people, store)
    tell("its people", (next_serial, [person(record)[:2] for _, record in objects.values()]) == (121, [(f"{n}", f"n{n}") for n in range(1, 121)]), next_serial)
