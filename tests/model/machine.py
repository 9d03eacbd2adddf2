"""The machine: what each line of a script does and answers, from the objects that a store has. Scripts and replies are texts of Latin-1; objects are
called by the texts of their pids."""
import functools
import re
from collections import namedtuple

from model.values import NoValue, Reference, matched

# The parts of commands behind their first words, as docs/SCRIPT.md has them.
FORMS = {
    "S basic|tx ro|rw": "open",
    "S": "close suspend status flush refresh freeall",
    "S T": "start",
    "S ok|fail": "end",
    "T SERIALIZABLE|READ_COMMITTED": "begin",
    "T": "commit rollback",
    "S HOME": "home count list",
    "S HOME V..": "create",
    "S HOME FACTORY V..": "make",
    "S HOME KEY V..": "find findref",
    "S PID": "pid",
    "S HOME SHORT": "short",
    "S I": "exists destroy pidof dup release",
    "S I MEMBER": "get follow",
    "S I MEMBER V..": "set",
    "": "stat history checkpoint",
}
COMMANDS = {verb: form.split() for form, verbs in FORMS.items() for verb in verbs.split()}
# How the words for these are spelled. Other parts are spelled as they are.
NAME = "[A-Za-z][A-Za-z0-9_]{0,31}"
SPELLINGS = {"S": NAME, "T": NAME, "I": "i(0|[1-9][0-9]{0,9})", "PID": "[0-9a-f]{24}", "SHORT": "[0-9a-f]{16}"}
SPELLINGS |= dict.fromkeys(["HOME", "FACTORY", "KEY", "MEMBER"], ".+")
WORD, BLANKS, END = re.compile(r"[^ \t]+"), re.compile(r"[ \t]*"), re.compile(r"(?![^ \t])")
# With which locks of another owner a lock clashes.
CLASHES = {"S": "MX", "M": "SX", "X": "SMX"}
LONGEST_LINE, MOST_NAMES, MOST_CHANGES, LONGEST_RECORD, MOST_LISTED, MOST_TOLD = 65536, 64, 256, 8000, 256, 64

# What an entry stands on: a copy of some kind of an object. An own copy is an owner's; a kept one is a session's, and has the record.
Copy = namedtuple("Copy", "kind pid whose record")


class Refusal(Exception):
    """A reply other than OK."""


class Store:
    """The committed objects, by pid, with their records, and the next serial, as one run leaves them to the next."""

    def __init__(self):
        self.objects, self.next = {}, 1


class Owner:
    """A transaction, or a basic session as the one for which it works."""

    def __init__(self, name, level):
        self.name, self.level, self.is_marked = name, level, False
        self.clear()

    def clear(self):
        """Drops locks and changes."""
        self.locks, self.changes, self.operations = set(), {}, 0


class Session:
    """A session, with the owner for which it works, if there is one, and its entries by the words for them."""

    def __init__(self, name, may_write, owner):
        self.name, self.may_write, self.owner, self.is_basic = name, may_write, owner, owner is not None
        self.state, self.last, self.entries = "NO_TRANSACTION", 0, {}

    def works(self):
        """Whether data commands may be done."""
        return self.is_basic or self.state == "ACTIVE"


class Entry:
    """What a session calls an object. Where it is detached it has no copy."""

    def __init__(self, pid):
        self.pid, self.count, self.copy = pid, 0, None


def lines_of(script):
    """The lines of a script. The last one has no LF, and keeps its CR."""
    *lines, last = script.split("\n")
    return [line if len(line) > LONGEST_LINE else line.removesuffix("\r") for line in lines] + [last]


def among(things, name, refusal):
    """The thing of a name, or the refusal where there is none."""
    if name not in things:
        raise Refusal(refusal)
    return things[name]


def arguments(line, words):
    """The words of a command behind its first. For its values it gives a function that reads them by their types."""
    parts, told = among(COMMANDS, words[0][0], f"ERR {words[0].start() + 1}"), []
    for number, part in enumerate(parts, 1):
        if part == "V..":
            return told + [functools.partial(values_of, line, words[number - 1].end())]
        if number == len(words):
            raise Refusal(f"ERR {len(line) + 1}")
        if not re.fullmatch(SPELLINGS.get(part, part), words[number][0], re.DOTALL):
            raise Refusal(f"ERR {words[number].start() + 1}")
        told.append(words[number][0])
    if len(words) > len(parts) + 1:
        raise Refusal(f"ERR {words[len(parts) + 1].start() + 1}")
    return told


def values_of(line, at, kinds):
    """The values of some types from a place to the line's end."""
    values = []
    for kind in kinds:
        at = BLANKS.match(line, at).end()
        try:
            value, end = kind.read(line, at)
            matched(END, line, end)
        except NoValue:
            raise Refusal(f"BADVALUE {at + 1}") from None
        values.append(value)
        at = end
    at = BLANKS.match(line, at).end()
    if at < len(line):
        raise Refusal(f"BADVALUE {at + 1}")
    return tuple(values)


def serial(pid):
    """The serial of an object: what its locks are on."""
    return pid[8:]


def targets(members, values):
    """The objects to which values of members refer."""
    return [value for member, value in zip(members, values) if isinstance(member.kind, Reference) and value]


def length(members, record):
    """How many octets a record has."""
    at = 1
    for member, value in zip(members, record):
        at = member.kind.end(value, at)
    return at


class Machine:
    """A run over a store. Each command is a method. Owners stand in the order in which they began."""

    def __init__(self, schema, store):
        self.schema, self.store, self.next = schema, store, store.next
        self.sessions, self.transactions, self.owners, self.commits = {}, {}, [], []

    def reply(self, line):
        """Performs a line, and gives its reply, if it has one."""
        words = list(WORD.finditer(line))
        if len(line) > LONGEST_LINE:
            return f"ERR {LONGEST_LINE + 1}"
        if not words or words[0][0].startswith("#"):
            return None
        try:
            told = arguments(line, words)
            said = getattr(self, f"do_{words[0][0]}")(*told)
        except Refusal as refusal:
            return str(refusal)
        return f"OK {said}" if said else "OK"

    # ---- what words stand for

    def session(self, name):
        """The session of a name."""
        return among(self.sessions, name, "NOSESSION")

    def of_kind(self, name, is_basic):
        """The session of a name, which has to be basic, or transactional."""
        session = self.session(name)
        if session.is_basic != is_basic:
            raise Refusal("KIND")
        return session

    def working(self, name):
        """The session of a data command, and its owner."""
        session = self.session(name)
        if not session.works():
            raise Refusal("NOTX")
        return session, session.owner

    def with_entry(self, name, word):
        """The session of a data command, its owner, and an entry."""
        session, owner = self.working(name)
        return session, owner, among(session.entries, word, "NOENTRY")

    def with_home(self, name, word):
        """The session of a data command, its owner, and a home."""
        session, owner = self.working(name)
        return session, owner, among(self.schema.named, word, "NOHOME")

    def home_of(self, pid):
        """The home of an object."""
        return self.schema.homes[int(pid[:8], 16) - 1]

    def member(self, pid, name):
        """A member of an object, by its number and itself."""
        home = self.home_of(pid)
        number = among(home.numbers, name, "NOMEMBER")
        return number, home.members[number]

    # ---- sessions and transactions

    def begun(self, name, level):
        """A new owner."""
        self.owners.append(Owner(name, level))
        return self.owners[-1]

    def expect_free(self, name, others, refusal):
        """Refuses a name that is in use, and one name more than there may be."""
        if name in self.sessions or name in self.transactions:
            raise Refusal("EXISTS")
        if len(others) == MOST_NAMES:
            raise Refusal(refusal)

    def do_open(self, name, kind, access):
        self.expect_free(name, self.sessions, "SESSIONS")
        self.sessions[name] = Session(name, access == "rw", self.begun(name, "BASIC") if kind == "basic" else None)

    def do_close(self, name):
        session = self.session(name)
        if session.is_basic:
            self.owners.remove(session.owner)
        elif session.owner:
            raise Refusal(f"ASSOC {session.owner.name}")
        del self.sessions[name]

    def do_begin(self, name, level):
        self.expect_free(name, self.transactions, "TRANSACTIONS")
        self.transactions[name] = self.begun(name, level)

    def do_start(self, name, transaction):
        self.session(name)
        owner = among(self.transactions, transaction, "NOTRANSACTION")
        session = self.of_kind(name, is_basic=False)
        if session.owner and (session.owner, session.state) != (owner, "SUSPENDED"):
            raise Refusal(f"ASSOC {session.owner.name}")
        session.owner, session.state = owner, "ACTIVE"

    def do_suspend(self, name):
        session = self.of_kind(name, is_basic=False)
        if session.state != "ACTIVE":
            raise Refusal("NOTX")
        session.state = "SUSPENDED"

    def do_end(self, name, how):
        session = self.of_kind(name, is_basic=False)
        if session.state not in ("ACTIVE", "SUSPENDED"):
            raise Refusal("NOTX")
        session.owner.is_marked |= how == "fail"
        session.state = "ENDING"
        self.detach(lambda other, _: other is session)

    def do_status(self, name):
        return self.of_kind(name, is_basic=False).state

    def do_commit(self, name):
        owner = among(self.transactions, name, "NOTRANSACTION")
        for session in self.sessions.values():
            if session.owner is owner and session.state in ("ACTIVE", "SUSPENDED"):
                raise Refusal(f"OPEN {session.name}")
        if not owner.is_marked:
            self.publish(owner)
        self.do_rollback(name)
        if owner.is_marked:
            raise Refusal("ROLLEDBACK")

    def do_rollback(self, name):
        owner = among(self.transactions, name, "NOTRANSACTION")
        self.detach(lambda session, _: session.owner is owner)
        for session in self.sessions.values():
            if session.owner is owner:
                session.owner, session.state = None, "NO_TRANSACTION"
        self.owners.remove(owner)
        del self.transactions[name]

    def do_flush(self, name):
        owner = self.of_kind(name, is_basic=True).owner
        self.publish(owner)
        owner.clear()

    def do_refresh(self, name):
        session = self.of_kind(name, is_basic=True)
        self.detach(lambda _, copy: copy.kind == "kept" and copy.whose is session)

    def publish(self, owner):
        """Commits what an owner has left different from before."""
        net = {pid: record for pid, record in owner.changes.items() if record != self.store.objects.get(pid)}
        self.detach(lambda _, copy: copy.whose is owner or copy.kind == "committed" and copy.pid in net)
        self.store.objects = {pid: record for pid, record in {**self.store.objects, **net}.items() if record is not None}
        if net:
            self.store.next = self.next
        if net or owner.level == "SERIALIZABLE":
            self.commits.append(f"{owner.name}:{owner.level}:{owner.operations}:{len(net)}")

    # ---- entries and copies

    def detach(self, is_left):
        """Detaches the entries that leave their copies, by their session and the copy."""
        for session in self.sessions.values():
            for entry in session.entries.values():
                if entry.copy and is_left(session, entry.copy):
                    entry.copy = None

    def attach(self, session, entry):
        """Puts an entry on a copy, where it stands on none."""
        if entry.copy:
            return
        if entry.pid in session.owner.changes:
            entry.copy = Copy("own", entry.pid, session.owner, None)
        elif session.is_basic:
            entry.copy = Copy("kept", entry.pid, session, self.store.objects[entry.pid])
        else:
            entry.copy = Copy("committed", entry.pid, None, None)

    def given(self, session, pid):
        """Gives a session an entry of an object: that which it has, or a new one."""
        word = next((word for word, entry in session.entries.items() if entry.pid == pid), None)
        if word is None:
            session.last += 1
            word = f"i{session.last}"
            session.entries[word] = Entry(pid)
        session.entries[word].count += 1
        self.attach(session, session.entries[word])
        return f"{word} {pid}"

    def do_pidof(self, name, word):
        pid = among(self.session(name).entries, word, "NOENTRY").pid
        return f"{pid} {serial(pid)}"

    def do_dup(self, name, word):
        entry = among(self.session(name).entries, word, "NOENTRY")
        entry.count += 1
        return str(entry.count)

    def do_release(self, name, word):
        entries = self.session(name).entries
        entry = among(entries, word, "NOENTRY")
        entry.count -= 1
        if entry.count == 0:
            del entries[word]
        return str(entry.count)

    def do_freeall(self, name):
        self.session(name).entries.clear()

    # ---- views and locks

    def seen(self, owner, pid):
        """The record of an object in an owner's view, or None."""
        return owner.changes.get(pid, self.store.objects.get(pid))

    def view(self, owner):
        """All objects in an owner's view."""
        return {pid: record for pid, record in {**self.store.objects, **owner.changes}.items() if record is not None}

    def holders(self, owner, key, values):
        """The objects in an owner's view that have these values of a key."""
        return [pid for pid, record in self.view(owner).items() if (key, values) in self.home_of(pid).key_values(record)]

    def there(self, owner, pid):
        """The record of an object that has to be in an owner's view."""
        record = self.seen(owner, pid)
        if record is None:
            raise Refusal(f"GONE {pid}")
        return record

    def lock(self, owner, **things):
        """Gives an owner locks on things, by their modes, or refuses them all. Those to read are for SERIALIZABLE alone. From then on the command counts."""
        needs = {(thing, mode) for mode in things if mode != "S" or owner.level == "SERIALIZABLE" for thing in things[mode]}
        for other in self.owners:
            if other is not owner and any((thing, held) in other.locks for thing, mode in needs for held in CLASHES[mode]):
                raise Refusal(f"BUSY {other.name}")
        owner.locks |= needs
        owner.operations += 1

    def may_change(self, session, pid):
        """Refuses a change in a session that only reads, and one object too many."""
        if not session.may_write:
            raise Refusal("READONLY")
        if pid not in session.owner.changes and len(session.owner.changes) == MOST_CHANGES:
            raise Refusal("MANY")

    def may_stand(self, owner, pid, record):
        """Refuses a record with a key that another object has, and one that is too long."""
        home = self.home_of(pid)
        for key, values in home.key_values(record):
            if any(other != pid for other in self.holders(owner, key, values)):
                raise Refusal(f"DUPLICATE {key.name}")
        if length(home.members, record) > LONGEST_RECORD:
            raise Refusal("TOOLARGE")

    # ---- data commands

    def do_create(self, name, word, values):
        session, _, home = self.with_home(name, word)
        return self.made(session, home, values([member.kind for member in home.members]))

    def do_make(self, name, word, factory, values):
        session, _, home = self.with_home(name, word)
        numbers = among(home.factories, factory, "NOFACTORY")
        told = dict(zip(numbers, values([home.members[number].kind for number in numbers])))
        return self.made(session, home, tuple(told.get(number, member.kind.default) for number, member in enumerate(home.members)))

    def made(self, session, home, record):
        """Makes an object, and gives it to a session."""
        owner, pid, referred = session.owner, f"{home.number:08x}{self.next:016x}", targets(home.members, record)
        self.may_change(session, pid)
        self.lock(owner, X=[serial(pid), *home.key_values(record)], M=[home], S=map(serial, referred))
        self.next += 1
        for target in referred:
            self.there(owner, target)
        self.may_stand(owner, pid, record)
        owner.changes[pid] = record
        return self.given(session, pid)

    def found(self, name, word, key, values):
        """The session, and what it looks for by a key."""
        session, owner, home = self.with_home(name, word)
        key = among(home.keys, key, "NOKEY")
        values = values([home.members[number].kind for number in key.numbers])
        self.lock(owner, S=[(key, values)])
        for pid in self.holders(owner, key, values):
            if home in self.home_of(pid).lineage:
                return session, pid
        raise Refusal("NOTFOUND")

    def do_find(self, *told):
        return self.given(*self.found(*told))

    def do_findref(self, *told):
        return self.found(*told)[1]

    def do_pid(self, name, pid):
        session, owner = self.working(name)
        self.lock(owner, S=[serial(pid)])
        if self.seen(owner, pid) is None:
            raise Refusal("NOTFOUND")
        return self.given(session, pid)

    def do_short(self, name, word, short):
        session, owner, home = self.with_home(name, word)
        self.lock(owner, S=[short])
        for pid in self.view(owner):
            if serial(pid) == short and self.home_of(pid).family is home.family:
                return self.given(session, pid)
        raise Refusal("NOTFOUND")

    def do_exists(self, name, word):
        _, owner, entry = self.with_entry(name, word)
        self.lock(owner, S=[serial(entry.pid)])
        return "FALSE" if self.seen(owner, entry.pid) is None else "TRUE"

    def read(self, owner, entry):
        """The record that an entry reads."""
        return entry.copy.record if entry.copy and entry.copy.kind == "kept" else self.there(owner, entry.pid)

    def do_get(self, name, word, member):
        session, owner, entry = self.with_entry(name, word)
        number, member = self.member(entry.pid, member)
        self.lock(owner, S=[serial(entry.pid)])
        value = self.read(owner, entry)[number]
        self.attach(session, entry)
        return member.kind.text(value)

    def do_follow(self, name, word, member):
        session, owner, entry = self.with_entry(name, word)
        number, member = self.member(entry.pid, member)
        if not isinstance(member.kind, Reference):
            raise Refusal("NOTREF")
        record = self.seen(owner, entry.pid) or ()
        self.lock(owner, S=map(serial, [entry.pid, *targets([member], record[number : number + 1])]))
        target = self.read(owner, entry)[number]
        if target is None:
            raise Refusal("NIL")
        self.there(owner, target)
        self.attach(session, entry)
        return self.given(session, target)

    def do_set(self, name, word, member, values):
        session, owner, entry = self.with_entry(name, word)
        number, member = self.member(entry.pid, member)
        value = values([member.kind])
        if member.is_readonly:
            raise Refusal("READONLY")
        pid, home, referred = entry.pid, self.home_of(entry.pid), targets([member], value)
        self.may_change(session, pid)
        old = self.seen(owner, pid)
        record = old and old[:number] + value + old[number + 1 :]
        # The old and the new values of each key that changes.
        keys = set(home.key_values(old)) ^ set(home.key_values(record)) if old else []
        self.lock(owner, X=[serial(pid), *keys], S=map(serial, referred))
        for needed in [pid, *referred]:
            self.there(owner, needed)
        self.may_stand(owner, pid, record)
        self.detach(lambda other, copy: other.owner is owner and copy.pid == pid and copy.kind != "own")
        owner.changes[pid] = record
        self.attach(session, entry)

    def do_destroy(self, name, word):
        session, owner, entry = self.with_entry(name, word)
        pid, home = entry.pid, self.home_of(entry.pid)
        self.may_change(session, pid)
        record = self.seen(owner, pid)
        keys, extents = ([], []) if record is None else (home.key_values(record), [home])
        self.lock(owner, X=[serial(pid), *keys], M=extents)
        self.there(owner, pid)
        self.detach(lambda other, copy: other.owner is owner and copy.pid == pid)
        owner.changes[pid] = None

    def extent(self, name, word):
        """The objects of a home and of those derived from it, by serial."""
        _, owner, home = self.with_home(name, word)
        self.lock(owner, S=[other for other in self.schema.homes if home in other.lineage])
        return sorted((pid for pid in self.view(owner) if home in self.home_of(pid).lineage), key=serial)

    def do_count(self, name, word):
        return str(len(self.extent(name, word)))

    def do_list(self, name, word):
        pids = self.extent(name, word)
        return " ".join([str(len(pids)), *pids[:MOST_LISTED]])

    # ---- homes and counts

    def do_home(self, name, word):
        self.session(name)
        home = among(self.schema.named, word, "NOHOME")
        return f"{home.number} {home.name}"

    def do_stat(self):
        entries = [entry for session in self.sessions.values() for entry in session.entries.values()]
        copies = [entry.copy for entry in entries if entry.copy]
        locks = sum(len(owner.locks) for owner in self.owners)
        there = f"sessions {len(self.sessions)} transactions {len(self.transactions)} entries {len(entries)} attached {len(copies)}"
        return f"{there} bodies {len(set(copies))} locks {locks} commits {len(self.commits)} objects {len(self.store.objects)}"

    def do_history(self):
        return " ".join([str(len(self.commits)), *self.commits[-MOST_TOLD:]])

    def do_checkpoint(self):
        """A script sees nothing of it."""
