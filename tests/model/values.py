"""Types, and the texts, defaults and places of their values, as docs/RECORDS.md says. Each type has the methods of `Kind`, and `read`."""
import re

NUMBER = re.compile(r"-?[0-9]{1,39}")
IDENTIFIER = re.compile(r"[A-Za-z][A-Za-z0-9_]*")
PID = re.compile(r"nil|[0-9a-f]{24}")
QUOTED = {mark: re.compile(rf"{mark}((?:[^{mark}\\\n\0]|\\[{mark}\\]|\\x[0-9A-Fa-f]{{2}})*){mark}") for mark in "'\""}
ESCAPE = re.compile(r"\\(?:x(..)|(.))")


class NoValue(Exception):
    """No value of the type begins here."""


def matched(pattern, text, at):
    """What a pattern finds at a place."""
    found = pattern.match(text, at)
    if not found:
        raise NoValue
    return found


def behind(sign, text, at):
    """The place behind a sign that stands at a place."""
    if not text.startswith(sign, at):
        raise NoValue
    return at + len(sign)


def aligned(at, size):
    """The first multiple of a size from a place on."""
    return at + -at % size


def unquoted(mark, text, at):
    """The characters between two marks, and the place behind them."""
    found = matched(QUOTED[mark], text, at)
    return ESCAPE.sub(lambda escape: chr(int(escape[1], 16)) if escape[1] else escape[2], found[1]), found.end()


def quoted(mark, characters):
    """Characters between two marks, as they are printed."""
    return mark + "".join("\\" + c if c in (mark, "\\") else c if " " <= c <= "~" else f"\\x{ord(c):02x}" for c in characters) + mark


class Kind:
    """A type. `read` gives the value whose text begins at a place, and the place behind it."""

    default, size = 0, 1

    def text(self, value):
        """A value as it is printed."""
        return str(value)

    def end(self, _, at):
        """The place behind the octets of a value that comes behind those up to a place."""
        return aligned(at, self.size) + self.size


class Integer(Kind):
    """A whole number."""

    def __init__(self, least, greatest, size):
        self.least, self.greatest, self.size = least, greatest, size

    def read(self, text, at):
        found = matched(NUMBER, text, at)
        if not self.least <= int(found[0]) <= self.greatest:
            raise NoValue
        return int(found[0]), found.end()


class Enumeration(Kind):
    """One of some names, by its number: an enum, or boolean."""

    def __init__(self, names, size=4):
        self.names, self.size = names, size

    def read(self, text, at):
        found = matched(IDENTIFIER, text, at)
        if found[0] not in self.names:
            raise NoValue
        return self.names.index(found[0]), found.end()

    def text(self, value):
        return self.names[value]


class Character(Kind):
    """One of 256 characters."""

    default = "\0"

    def read(self, text, at):
        value, at = unquoted("'", text, at)
        if len(value) != 1:
            raise NoValue
        return value, at

    def text(self, value):
        return quoted("'", value)


class String(Kind):
    """Characters other than NUL."""

    default = ""

    def __init__(self, bound):
        self.bound = bound

    def read(self, text, at):
        value, at = unquoted('"', text, at)
        if "\0" in value or len(value) > self.bound:
            raise NoValue
        return value, at

    def text(self, value):
        return quoted('"', value)

    def end(self, value, at):
        return aligned(at, 4) + 4 + len(value) + 1


class Struct(Kind):
    """A value for each of some types."""

    brackets = "{}"

    def __init__(self, kinds):
        self.kinds, self.default = kinds, tuple(kind.default for kind in kinds)

    def parts(self, value):
        """Each part of a value, with its type."""
        return zip(self.kinds, value)

    def read(self, text, at):
        values = []
        for kind in self.kinds:
            value, at = kind.read(text, behind("," if values else "{", text, at))
            values.append(value)
        return tuple(values), behind("}", text, at)

    def text(self, value):
        return ",".join(kind.text(part) for kind, part in self.parts(value)).join(self.brackets)

    def end(self, value, at):
        for kind, part in self.parts(value):
            at = kind.end(part, at)
        return at


class Array(Struct):
    """Values of one type."""

    brackets = "[]"

    def __init__(self, item, least, greatest):
        self.item, self.least, self.greatest, self.default = item, least, greatest, (item.default,) * least

    def parts(self, value):
        return ((self.item, part) for part in value)

    def read(self, text, at):
        values, at = [], behind("[", text, at)
        while not text.startswith("]", at):
            value, at = self.item.read(text, behind(",", text, at) if values else at)
            values.append(value)
        if not self.least <= len(values) <= self.greatest:
            raise NoValue
        return tuple(values), at + 1


class Sequence(Array):
    """Up to so many values of one type, with their number in front."""

    def __init__(self, item, bound):
        super().__init__(item, 0, bound)

    def end(self, value, at):
        return super().end(value, aligned(at, 4) + 4)


class Reference(Kind):
    """A pid, or None for nil. Which storage homes its target may have is known once the whole text was read."""

    default = None

    def __init__(self, target):
        self.target, self.homes = target, ()

    def read(self, text, at):
        found = matched(PID, text, at)
        pid = None if found[0] == "nil" else found[0]
        if pid and (int(pid[:8], 16) not in self.homes or int(pid[8:], 16) == 0):
            raise NoValue
        return pid, found.end()

    def text(self, value):
        return value or "nil"

    def end(self, _, at):
        return aligned(aligned(at, 4) + 4, 8) + 8


# The types that have no parts but their words.
PLAIN = {"octet": Integer(0, 255, 1), "char": Character(), "boolean": Enumeration(["FALSE", "TRUE"], 1)}
for word, octets in [("short", 2), ("long", 4), ("long long", 8)]:
    PLAIN[word] = Integer(-(2 ** (8 * octets - 1)), 2 ** (8 * octets - 1) - 1, octets)
    PLAIN[f"unsigned {word}"] = Integer(0, 2 ** (8 * octets) - 1, octets)
