"""An author of random scripts. It writes each line by what the machine has come to, so that most lines stand, and locks, keys and copies meet."""
import itertools
import math

from model.machine import COMMANDS, LONGEST_RECORD, serial
from model.psdl import UNBOUNDED
from model.values import Array, Character, Enumeration, Integer, Reference, String, Struct


def by_verb(table):
    """A table by commands, from one by lists of them."""
    return {verb: what for verbs, what in table.items() for verb in verbs.split()}


# How often commands come, where they are likely to stand.
WEIGHTS = by_verb(
    {
        "start": 15,
        "open begin get set": 12,
        "pid follow": 7,
        "create find commit stat": 6,
        "make": 5,
        "short": 4,
        "suspend end flush findref exists destroy release": 3,
        "dup count": 2,
        "status rollback refresh list pidof": 1,
        "close freeall home history checkpoint": 0.4,
    }
)
# Words that fit hardly anywhere.
STRANGE = """x # i0 i01 i12345678901 9s OPEN :: . nil -1 0x1 'a' "\\x41" "\\x00" [1,] {} TRUE""".split() + ["s" * 33, "0" * 24, "0" * 40]
# For which sessions commands are likely to stand.
SUITS = by_verb(
    {
        "create make find findref pid short count list": lambda session: session.works(),
        "get set destroy follow exists": lambda session: session.works() and session.entries,
        "pidof dup release freeall": lambda session: session.entries,
        "flush refresh": lambda session: session.is_basic,
        "status": lambda session: not session.is_basic,
        "start": lambda session: not session.is_basic and session.state in ("NO_TRANSACTION", "SUSPENDED"),
        "suspend": lambda session: session.state == "ACTIVE",
        "end": lambda session: session.state in ("ACTIVE", "SUSPENDED"),
        "close home": lambda session: True,
    }
)


class Author:
    """Writes the lines of a run. What it likes it draws first."""

    def __init__(self, chance, machine):
        self.chance, self.machine, self.schema, self.verb = chance, machine, machine.schema, ""
        self.weights = list(itertools.accumulate(weight * math.exp(chance.gauss(0, 0.5)) for weight in WEIGHTS.values()))
        self.sessions = [f"s{number}" for number in range(chance.choice([2, 3, 5]))]
        self.transactions = [f"t{number}" for number in range(chance.choice([1, 2, 4]))]
        self.homes = chance.sample(sorted(self.schema.named), chance.choice([1, 2, len(self.schema.named)]))
        # The shares of strange lines and of long strings, and how few numbers and words are used often.
        self.odd, self.long, self.few = chance.choice([0, 0.02, 0.1]), chance.choice([0, 0, 0.6]), chance.choice([2, 3, 6])
        self.shares = {"basic": chance.choice([0, 0.3, 0.6, 1]), "SERIALIZABLE": chance.choice([0, 0.5, 0.8, 1]), "ro": 0.05, "ok": 0.8}
        self.words = {"T": self.transaction, "HOME": self.home, "FACTORY": self.factory, "KEY": self.key, "I": self.entry, "MEMBER": self.member}
        self.words |= {"PID": self.pid, "SHORT": lambda: serial(self.pid()), "V..": self.values}

    def comes(self, share):
        """Whether something comes now that comes with this share."""
        return self.chance.random() < share

    def some(self, words):
        """One of some words, most often of the first few; a strange one where there is none, and now and then."""
        if not words or self.comes(0.02):
            return self.chance.choice(STRANGE)
        return self.chance.choice(words[: self.few] if self.comes(0.6) else words)

    # ---- lines

    def line(self):
        """The next line."""
        names = []
        while not names:
            is_asked = self.verb in ("set", "destroy", "end", "commit", "flush") and self.comes(0.3)
            verb = "stat" if is_asked else self.chance.choices(list(WEIGHTS), cum_weights=self.weights)[0]
            names = self.sessions + self.transactions + ["nobody"] if self.comes(0.02) else self.suited(verb)
        self.verb, name = verb, self.chance.choice(names)
        self.session = self.machine.sessions.get(name)
        words = [verb, name] if COMMANDS[verb] else [verb]
        words += [self.word(part) for part in COMMANDS[verb][1:]]
        return self.altered(words) if self.comes(self.odd) else " ".join(words)

    def suited(self, verb):
        """The names behind which a command is likely to stand."""
        sessions, transactions = self.machine.sessions, self.machine.transactions
        if verb == "open":
            return [name for name in self.sessions if name not in sessions]
        if verb == "begin":
            return [name for name in self.transactions if name not in transactions]
        if verb in ("commit", "rollback"):
            used = [session.owner for session in sessions.values() if session.state in ("ACTIVE", "SUSPENDED")]
            return [name for name, owner in transactions.items() if owner not in used or self.comes(0.05)]
        return [name for name, session in sessions.items() if SUITS[verb](session)] if COMMANDS[verb] else [""]

    def altered(self, words):
        """A line with something strange: a word or more words less, a word more or another one, blanks, a character more or another one."""
        at, pick = self.chance.randrange(len(words)), self.chance.choice
        front, behind, strange = words[:at], words[at + 1 :], pick(STRANGE)
        words = pick([words, front, front + behind, [*front, strange, words[at], *behind], [*front, strange, *behind]])
        line = pick([" ", "\t", " \t "]).join(words) + pick(["", " ", "\t ", "\r"])
        at, character = self.chance.randrange(len(line) + 1), pick('"\\,\0\xff0]')
        return pick([line, line, line, line[:at] + character + line[at:], line[:at] + character + line[at + 1 :]])

    # ---- words behind the first name

    def word(self, part):
        """What stands for a part of a command. What was chosen for the parts in front of it is at hand."""
        if part in self.words:
            return self.words[part]()
        first, second = part.split("|")
        return first if self.comes(self.shares[first]) else second

    def transaction(self):
        """The transaction of an associated session, or any."""
        owner = self.session and self.session.owner
        return owner.name if owner and self.comes(0.7) else self.some(list(self.machine.transactions))

    def home(self):
        """A home that has what the command needs. Members, keys and factories are then those of this home."""
        needed = {"make": "factories", "find": "keys", "findref": "keys"}.get(self.verb, "name")
        word = self.some([word for word in self.homes if getattr(self.schema.named[word], needed)])
        self.chosen = self.schema.named.get(word, self.schema.homes[0])
        self.numbers = range(len(self.chosen.members))
        return word

    def factory(self):
        """A factory of the home."""
        word = self.some(list(self.chosen.factories))
        self.numbers = self.chosen.factories.get(word, [])
        return word

    def key(self):
        """A key of the home."""
        word = self.some(list(self.chosen.keys))
        self.numbers = self.chosen.keys[word].numbers if word in self.chosen.keys else []
        return word

    def entry(self):
        """An entry of the session, or a number that it may not have."""
        entries = self.session.entries if self.session else {}
        word = f"i{self.chance.randint(0, 9)}" if self.comes(0.02) else self.some(list(entries))
        self.object = entries[word].pid if word in entries else None
        self.chosen = self.machine.home_of(self.object) if self.object else self.schema.homes[0]
        return word

    def member(self):
        """A member of the entry's object; for `follow` a reference, in most cases."""
        names = [member.name for member in self.chosen.members if self.verb != "follow" or isinstance(member.kind, Reference) or self.comes(0.05)]
        word = self.some(self.chance.sample(names, len(names)))
        self.numbers = [self.chosen.numbers[word]] if word in self.chosen.numbers else []
        return word

    def views(self):
        """The committed objects, and what each owner changed."""
        return [self.machine.store.objects, *(owner.changes for owner in self.machine.owners)]

    def pid(self, fits=lambda pid: True):
        """An object that fits, which may be destroyed; now and then one that is not there, or of another home."""
        pids = list(dict.fromkeys(pid for view in self.views() for pid in view if fits(pid)))
        if pids and self.comes(0.9):
            return self.chance.choice(pids[: self.few] if self.comes(0.5) else pids[-self.few :])
        return f"{self.chance.randint(0, len(self.schema.homes) + 1):08x}{self.chance.randint(0, self.machine.next):016x}"

    def values(self):
        """Values of the members that were named. Often a look-up asks for those that an object has, and a member is set to what is committed."""
        kinds, records = [self.chosen.members[number].kind for number in self.numbers], []
        if self.verb in ("find", "findref") and self.comes(0.7):
            records = [view[pid] for view in self.views() for pid in view if view[pid] and self.chosen in self.machine.home_of(pid).lineage]
        if self.verb == "set" and self.comes(0.3):
            records = [self.machine.store.objects.get(self.object)]
        record = self.chance.choice(records or [None])
        return " ".join(kind.text(record[number] if record else self.value(kind)) for kind, number in zip(kinds, self.numbers))

    def value(self, kind):
        """A value of a type, and now and then one that is just none. There are few, so that they meet."""
        chance = self.chance
        if isinstance(kind, Integer):
            return chance.choice([kind.least - 1, kind.least, kind.greatest, kind.greatest + 1]) if self.comes(0.03) else chance.randrange(self.few)
        if isinstance(kind, Enumeration):
            return chance.randrange(len(kind.names))
        if isinstance(kind, Character):
            return chance.choice("ab'\"\\\0\xff")
        if isinstance(kind, String):
            longest = kind.bound + 1 if kind.bound < UNBOUNDED else LONGEST_RECORD - chance.randrange(50) if self.comes(self.long) else 3
            return "".join(chance.choices("ab" if self.comes(0.9) else "a'\"\\ \xff\0", k=chance.choice([0, 1, 1, 1, 2, 2, longest])))
        if isinstance(kind, Array):
            return tuple(self.value(kind.item) for _ in range(chance.randint(kind.least, min(kind.greatest, kind.least + 2))))
        if isinstance(kind, Struct):
            return tuple(map(self.value, kind.kinds))
        return None if self.comes(0.3) else self.pid(lambda pid: int(pid[:8], 16) in kind.homes)
