"""The schema of a text, as docs/PSDL.md says. The text is sound, its bounds are plain numbers, and it has no constants, operations and forward
declarations."""
import re
from collections import deque, namedtuple

from model.values import PLAIN, Array, Enumeration, Reference, Sequence, String, Struct

TOKEN = re.compile(r"/\*.*?\*/|//[^\n]*|(\w+|::|[{}()\[\]<>:;,])", re.ASCII | re.DOTALL)
UNBOUNDED = 2**32 - 1

Member = namedtuple("Member", "name kind is_readonly")
# A key belongs to the home that introduces it, and has the numbers of its members.
Key = namedtuple("Key", "home name numbers")


class StorageType:
    """A storage type, abstract or not, with its members and all that it conforms to."""

    def define(self, above, own):
        """Adds what is inherited to its own members. A member that comes again is dropped."""
        self.members = list(dict.fromkeys([member for kind in above for member in kind.members] + own))
        self.lineage = {self}.union(*(kind.lineage for kind in above))


class Home:
    """A storage home, abstract or not, with all from which it derives or which it implements."""

    def define(self, above, own):
        """Adds what is inherited to its own keys and factories: their names, with those of their members."""
        self.names = {what: {name: names for home in above for name, names in home.names[what].items()} | own[what] for what in own}
        self.lineage = {self}.union(*(home.lineage for home in above))

    def lay_out(self, number, name, kind, base):
        """Makes it a home that has objects. The keys of its base are its own, too."""
        self.number, self.name, self.kind, self.members = number, name, kind, kind.members
        self.family, inherited = (base.family, base.keys) if base else (self, {})
        self.numbers = {member.name: place for place, member in enumerate(self.members)}
        numbered = {what: {word: tuple(map(self.numbers.get, names)) for word, names in lists.items()} for what, lists in self.names.items()}
        self.factories = numbered["factory"]
        self.keys = {word: Key(number, word, numbers) for word, numbers in numbered["key"].items()} | inherited

    def key_values(self, record):
        """Each key with its values in a record."""
        return [(key, tuple(record[number] for number in key.numbers)) for key in self.keys.values()]


class Scope:
    """What is declared in the whole text, or in a module."""

    def __init__(self, outer=None, prefix=""):
        self.outer, self.prefix, self.declared = outer, prefix, {}


class Schema:
    """The homes of a text, and each word of a script that names one. It reads the text from its front, and takes signs that have to come without a look."""

    def __init__(self, text):
        self.ahead, self.whole = deque(token for token in TOKEN.findall(text) if token), Scope()
        self.scope, self.homes, self.provided, self.references = self.whole, [], [], []
        while self.ahead:
            self.definition()
            self.take(";")
        self.named = {word: home for home in self.homes for word in (home.name, f"::{home.name}")}
        for word, abstract in self.provided:
            self.named[word] = next(home for home in self.homes if abstract in home.lineage)
        for reference in self.references:
            reference.homes = [home.number for home in self.homes if reference.target in home.kind.lineage]

    def take(self, *tokens):
        """The next token, if it is one of these."""
        return self.ahead.popleft() if self.ahead and self.ahead[0] in tokens else ""

    def identifier(self):
        """An identifier by its name, in front of which a `_` may stand."""
        return self.ahead.popleft().removeprefix("_")

    def name(self):
        """What a name means. It is looked up outwards."""
        scope, first = self.whole if self.take("::") else self.scope, self.identifier()
        while first not in scope.declared:
            scope = scope.outer
        found = scope.declared[first]
        while self.take("::"):
            found = found.declared[self.identifier()]
        return found

    def declare(self, name, meaning):
        """Declares a name in its scope."""
        self.scope.declared[name] = meaning
        return meaning

    def listed(self, read):
        """What is read once, and once more behind each comma."""
        found = [read()]
        while self.take(","):
            found.append(read())
        return found

    def body(self, read):
        """Reads all that stands in brackets, each with its `;`."""
        self.take("{")
        while not self.take("}"):
            read()
            self.take(";")

    def bound(self, sign, close):
        """The number behind a sign, if the sign stands there, and what closes it."""
        bound = int(self.ahead.popleft()) if self.take(sign) else UNBOUNDED
        self.take(close)
        return bound

    # ---- definitions, by their words

    def definition(self):
        """Reads any definition."""
        self.is_abstract = self.take("abstract")
        getattr(self, self.ahead.popleft())()

    def module(self):
        """Reads a module, which may go on with an earlier one."""
        name = self.identifier()
        self.scope = self.scope.declared.get(name) or self.declare(name, Scope(self.scope, f"{self.scope.prefix}{name}::"))
        self.body(self.definition)
        self.scope = self.scope.outer

    def typedef(self):
        """Declares names for a type, or for arrays of it."""
        for name, kind in self.declarators():
            self.declare(name, kind)

    def struct(self):
        """Declares a struct."""
        name, fields = self.identifier(), []
        self.body(lambda: fields.extend(self.declarators()))
        self.declare(name, Struct([kind for _, kind in fields]))

    def enum(self):
        """Declares an enum."""
        name = self.identifier()
        self.take("{")
        self.declare(name, Enumeration(self.listed(self.identifier)))
        self.take("}")

    def storagetype(self):
        """Declares a storage type, whose body may name it."""
        kind, own = self.declare(self.identifier(), StorageType()), []
        above = self.heading()
        self.body(lambda: own.extend(self.state()))
        kind.define(above, own)

    def storagehome(self):
        """Declares a storage home, abstract or not."""
        is_abstract, name, own = self.is_abstract, self.identifier(), {"key": {}, "factory": {}}
        home, above = self.declare(name, Home()), self.heading()
        self.body(lambda: self.key_or_factory(own))
        kind, homes = next(one for one in above if isinstance(one, StorageType)), [one for one in above if isinstance(one, Home)]
        home.define(homes, own)
        if not is_abstract:
            home.lay_out(len(self.homes) + 1, self.scope.prefix + name, kind, next((base for base in homes if base in self.homes), None))
            self.homes.append(home)

    def catalog(self):
        """Notes what a catalog provides: it may stand behind."""
        name = self.scope.prefix + self.identifier()
        self.body(lambda: self.provided.append(self.provides(name)))

    # ---- parts of definitions

    def heading(self):
        """What the names behind `:`, `of` and `implements` mean."""
        above = []
        while self.take(":", "of", "implements"):
            above += self.listed(self.name)
        return above

    def state(self):
        """Members of one type."""
        is_readonly = self.take("readonly") != ""
        self.take("state")
        kind = self.kind()
        return [Member(name, kind, is_readonly) for name in self.listed(self.identifier)]

    def key_or_factory(self, own):
        """Notes a key or a factory. A key without a list has the member of its name."""
        self.take("primary")
        what, name = self.ahead.popleft(), self.identifier()
        own[what][name] = [name]
        if self.take("("):
            own[what][name] = [] if self.ahead[0] == ")" else self.listed(self.identifier)
            self.take(")")

    def provides(self, catalog):
        """A word for a home that a catalog provides, and the abstract home that it implements."""
        self.take("provides")
        abstract = self.name()
        return f"{catalog}.{self.identifier()}", abstract

    def declarators(self):
        """Names with their types, behind a type."""
        kind = self.kind()
        return self.listed(lambda: self.declarator(kind))

    def declarator(self, kind):
        """A name with its type, which may be an array of arrays."""
        name, counts = self.identifier(), []
        while self.ahead[0] == "[":
            counts.insert(0, self.bound("[", "]"))
        for count in counts:
            kind = Array(kind, count, count)
        return name, kind

    def kind(self):
        """A type."""
        if self.take("string"):
            return String(self.bound("<", ">"))
        if self.take("sequence"):
            self.take("<")
            return Sequence(self.kind(), self.bound(",", ">"))
        if self.take("ref"):
            self.take("<")
            self.references.append(Reference(self.name()))
            self.take(">")
            return self.references[-1]
        words = []
        while word := self.take("unsigned", "short", "long", "char", "boolean", "octet"):
            words.append(word)
        return PLAIN[" ".join(words)] if words else self.name()
