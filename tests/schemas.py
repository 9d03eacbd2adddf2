"""Schemas of one storage home, and the identifiers of its objects."""

CELLS = b"storagetype Cell{state long v;};storagehome Cells of Cell{};"
KEYED = b"storagetype Cell{state long v;};storagehome Cells of Cell{key v;};"
NOTES = b"storagetype Note{state string t;};storagehome Notes of Note{};"
NUMBERED = b"storagetype Note{state long k;state string t;};storagehome Notes of Note{key k;factory make(k,t);};"


def pid(serial):
    return f"{1:08x}{serial:016x}"
