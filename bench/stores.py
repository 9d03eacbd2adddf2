"""Stores that are written here, object by object, so that no run has to make them: of the text of `CELLS`, each object with a record of 8 octets, and
of that of `LONG_CELLS`, full to the last octet."""

AREA, FIRST_SLOT, PAGE, HEAD = 131_072, 4_456_448, 16_384, 40
CELLS = "storagetype Cell{state long v;};storagehome Cells of Cell{};"
SHAPE = b"home 1 0 Cells\nmember v long\n"
RECORD = bytes(4) + (7).to_bytes(4, "big")
ENTRY = 16 + len(RECORD)
IN_A_PAGE = (PAGE - HEAD) // ENTRY
LONG_CELLS = "typedef sequence<octet> Octets;storagetype Cell{state Octets v;};storagehome Cells of Cell{};"
LONG_SHAPE = b"home 1 0 Cells\nmember v seq(octet)\n"
# So much may all objects weigh, each 16 and its record; two records of these octets fill a page.
MOST, LONG = 67_108_864, 7_992


def number(value, width):
    return value.to_bytes(width, "big")


def octets(length):
    """The record of so many octets with one sequence."""
    return bytes(4) + number(length - 8, 4) + bytes(length - 8)


def page(index, objects):
    """A page of the first epoch with these objects, each a serial and a record."""
    entries = b"".join(number(1, 4) + number(len(record), 4) + number(serial, 8) + record for serial, record in objects)
    head = b"PSSPAGE1" + number(1, 8) + number(index, 4) + number(len(objects), 4) + number(len(entries), 4)
    return (head.ljust(HEAD, b"\0") + entries).ljust(PAGE, b"\0")


def write_store(path, shape, objects, pages):
    """Writes a store of so many objects in these pages, with its first root."""
    root = b"\xa5PSSROOT" + number(1, 8) + number(objects + 1, 8) + number(len(shape), 4) + number(len(pages), 4) + shape
    slots = b"".join(number(slot, 4) for slot in range(len(pages)))
    with open(path, "wb") as out:
        out.write((root.ljust(65_568, b"\0") + slots).ljust(FIRST_SLOT, b"\0"))
        for index, of_page in enumerate(pages):
            out.write(page(index, of_page()))


def make_store(path, objects):
    """Writes a store of so many objects, whose pages are full but for the last one."""
    firsts = range(1, objects + 1, IN_A_PAGE)
    pages = [lambda first=first: [(serial, RECORD) for serial in range(first, min(first + IN_A_PAGE, objects + 1))] for first in firsts]
    write_store(path, SHAPE, objects, pages)


def make_full_store(path):
    """Writes a store whose objects weigh as much as they may."""
    whole, rest = divmod(MOST, 16 + LONG)
    pages = [lambda serial=serial: [(serial, octets(LONG)), (serial + 1, octets(LONG))] for serial in range(1, whole, 2)]
    pages.append(lambda: [(whole + 1, octets(rest - 16))])
    write_store(path, LONG_SHAPE, whole + 1, pages)
