"""Scripts up to the greatest numbers that are served. A case is its name, the schema's text, the lines of the script and the replies, and those of a
second run over the store, or none."""

from schemas import CELLS, KEYED, NOTES, NUMBERED, pid

OPENED = ("open s1 basic rw", "OK")
FLUSHED = ("flush s1", "OK")

MOST_SESSIONS = 64
MOST_TRANSACTIONS = 64
MOST_CHANGES = 256
MOST_ENTRIES = 65535
MOST_KEYS = 204800
LONGEST_LINE = 65536
MOST_OCTETS = 67108864
# A record of 8,000 octets: one in front, three to the next place of four, a length of four, the letters and a zero octet.
LONGEST_NOTE = 7991
# The same with a number of four octets in front of the length.
LONGEST_NUMBERED = LONGEST_NOTE - 4


def created(home, number, value):
    """A create whose entry and serial are this number."""
    return f"create s1 {home} {value}", f"OK i{number} {pid(number)}"


def sessions():
    for n in range(MOST_SESSIONS):
        yield f"open s{n} {('basic', 'tx')[n % 2]} rw", "OK"
    yield "open one_more basic rw", "SESSIONS"
    yield "open s7 tx ro", "EXISTS"
    yield "close s7", "OK"
    yield "open one_more tx ro", "OK"
    yield "open s7 basic rw", "SESSIONS"


def transactions():
    for n in range(MOST_TRANSACTIONS):
        yield f"begin t{n} {('SERIALIZABLE', 'READ_COMMITTED')[n % 2]}", "OK"
    yield "begin one_more SERIALIZABLE", "TRANSACTIONS"
    yield "begin t7 SERIALIZABLE", "EXISTS"
    # Sessions are counted apart.
    yield "open s1 basic rw", "OK"
    yield "commit t7", "OK"
    yield "begin one_more READ_COMMITTED", "OK"
    yield "begin t7 SERIALIZABLE", "TRANSACTIONS"


def changes():
    yield "open s1 tx rw", "OK"
    yield "begin t1 SERIALIZABLE", "OK"
    yield "start s1 t1", "OK"
    for n in range(MOST_CHANGES):
        yield created("Cells", n + 1, n)
    yield "create s1 Cells 7", "MANY"
    # An object that was changed before is none more.
    yield "set s1 i1 v 8", "OK"
    yield "destroy s1 i2", "OK"
    yield "create s1 Cells 7", "MANY"
    yield "end s1 ok", "OK"
    yield "commit t1", "OK"
    yield "begin t1 SERIALIZABLE", "OK"
    yield "start s1 t1", "OK"
    yield created("Cells", MOST_CHANGES + 1, 7)
    yield "count s1 Cells", f"OK {MOST_CHANGES}"


def entries():
    yield OPENED
    for n in range(1, MOST_ENTRIES + 1):
        yield created("Cells", n, n)
        if n % MOST_CHANGES == 0:
            yield FLUSHED
    yield FLUSHED
    yield "create s1 Cells 7", "ENTRIES"
    yield f"pid s1 {pid(7)}", "ENTRIES"
    yield "get s1 i65535 v", "OK 65535"
    yield "release s1 i7", "OK 0"
    yield created("Cells", MOST_ENTRIES + 1, 7)
    yield "create s1 Cells 7", "ENTRIES"
    yield "freeall s1", "OK"
    yield created("Cells", MOST_ENTRIES + 2, 7)


def lines():
    yield OPENED
    yield created("Cells", 1, 7)
    yield "get s1 i1 v".ljust(LONGEST_LINE + 1), "ERR 65537"
    yield "get s1 i1 v".ljust(LONGEST_LINE), "OK 7"
    yield "#" * (LONGEST_LINE + 1), "ERR 65537"
    yield "get s1 i1 v".ljust(LONGEST_LINE) + "\r", "ERR 65537"
    yield "get s1 i1 v".ljust(LONGEST_LINE - 1) + "\r", "OK 7"
    yield "create s1 Cells".ljust(LONGEST_LINE), "BADVALUE 65537"
    yield "get s1 i1 v", "OK 7"


def keys():
    """A look-up by key among many objects, each made with a key of its own. The journal does not hold all of them, so that a flush makes a
    checkpoint on the way."""
    yield OPENED
    for n in range(1, MOST_KEYS + 1):
        yield created("Cells", n, n)
        if n % MOST_CHANGES == 0:
            yield "freeall s1", "OK"
            yield FLUSHED
    yield "count s1 Cells", f"OK {MOST_KEYS}"
    yield f"find s1 Cells v {MOST_KEYS}", f"OK i{MOST_KEYS + 1} {pid(MOST_KEYS)}"
    yield "create s1 Cells 1", "DUPLICATE v"


def keys_again():
    """Each object is found by its key."""
    yield OPENED
    yield "count s1 Cells", f"OK {MOST_KEYS}"
    for n in range(1, MOST_KEYS + 1):
        yield f"findref s1 Cells v {n}", f"OK {pid(n)}"
    yield "create s1 Cells 1", "DUPLICATE v"


def records():
    """A record of 8,000 octets, and none of one more: by a factory, by `create` and by `set`. A key that is taken stands before it. What is
    refused leaves no key behind, but a serial is used."""
    longest, longer = ('"' + "a" * n + '"' for n in (LONGEST_NUMBERED, LONGEST_NUMBERED + 1))
    yield OPENED
    yield f"make s1 Notes make 1 {longest}", f"OK i1 {pid(1)}"
    yield f"make s1 Notes make 2 {longer}", "TOOLARGE"
    yield f"make s1 Notes make 1 {longer}", "DUPLICATE k"
    yield f"create s1 Notes 2 {longer}", "TOOLARGE"
    yield f"set s1 i1 t {longer}", "TOOLARGE"
    yield "get s1 i1 t", f"OK {longest}"
    yield 'set s1 i1 t ""', "OK"
    yield f"set s1 i1 t {longest}", "OK"
    yield 'make s1 Notes make 2 ""', f"OK i2 {pid(5)}"
    yield f"set s1 i2 t {longer}", "TOOLARGE"
    yield "set s1 i2 k 1", "DUPLICATE k"
    yield FLUSHED
    yield "checkpoint", "OK"
    yield "count s1 Notes", "OK 2"


def records_again():
    yield OPENED
    yield "find s1 Notes k 1", f"OK i1 {pid(1)}"
    yield "get s1 i1 t", f'OK "{"a" * LONGEST_NUMBERED}"'
    yield "find s1 Notes k 2", f"OK i2 {pid(5)}"
    yield "get s1 i2 t", 'OK ""'


def octets():
    """As many octets as may be committed, and not one more."""
    yield OPENED
    longest = '"' + "a" * LONGEST_NOTE + '"'
    whole = MOST_OCTETS // 8016
    for n in range(1, whole + 1):
        yield created("Notes", n, longest)
        if n % MOST_CHANGES == 0:
            yield FLUSHED
    yield FLUSHED
    yield created("Notes", whole + 1, longest)
    yield "flush s1", "FULL"
    yield f"destroy s1 i{whole + 1}", "OK"
    # What is left is the record of a note of so many letters, with 16 octets for the object and nine round its text.
    left = MOST_OCTETS - whole * 8016 - 16 - 9
    yield created("Notes", whole + 2, '"' + "a" * (left + 1) + '"')
    yield "flush s1", "FULL"
    yield f'set s1 i{whole + 2} t "' + "a" * left + '"', "OK"
    yield FLUSHED
    yield created("Notes", whole + 3, '""')
    yield "flush s1", "FULL"
    yield f"destroy s1 i{whole + 3}", "OK"
    yield FLUSHED
    yield "count s1 Notes", f"OK {whole + 1}"


def octets_again():
    """The store is as full as before."""
    whole = MOST_OCTETS // 8016
    yield OPENED
    yield "count s1 Notes", f"OK {whole + 1}"
    yield 'create s1 Notes ""', f"OK i1 {pid(whole + 3)}"
    yield "flush s1", "FULL"
    yield "destroy s1 i1", "OK"
    yield f"pid s1 {pid(1)}", f"OK i2 {pid(1)}"
    yield "destroy s1 i2", "OK"
    yield FLUSHED
    yield "count s1 Notes", f"OK {whole}"


CASES = [
    ("64 sessions", CELLS, sessions, None),
    ("64 transactions", CELLS, transactions, None),
    ("256 changes", CELLS, changes, None),
    ("65,535 entries", CELLS, entries, None),
    ("lines of 65,536 bytes", CELLS, lines, None),
    ("204,800 keys", KEYED, keys, keys_again),
    ("records of 8,000 octets", NUMBERED, records, records_again),
    ("67,108,864 octets", NOTES, octets, octets_again),
]


def texts(of):
    """A script and its replies."""
    return tuple("".join(f"{line}\n" for line in part).encode() for part in zip(*of()))


def cases():
    for name, schema, of, again in CASES:
        yield name, schema, texts(of), again and texts(again)
