"""Texts that are hard to check: each has two lists of which a checker that is not careful takes the product. Some have faults."""

HOMES = 4096


def filled(size, front, piece, back):
    """As many pieces as there is room for."""
    text, left, n = [front], size - len(front) - len(back), 0
    while len(piece(n)) <= left:
        text.append(piece(n))
        left -= len(text[-1])
        n += 1
    return "".join(text) + back + " " * left


def below(sort, first, body=lambda n: ""):
    """Declarations in a chain, each derived from the one in front of it."""
    return lambda n: f"{sort}{n:x} : {first if n == 0 else f'{sort.split()[-1]}{n - 1:x}'} {{{body(n)}}};\n"


def factories_under_heirs(size):
    """Half of the text: factories of one abstract home. The other half: abstract homes that inherit them."""
    listed = "".join(f"factory f{n:x}();" for n in range(size // 32))
    front = f"abstract storagetype A {{}};\nabstract storagehome J of A {{{listed}}};\n"
    return filled(size, front, lambda n: f"abstract storagehome h{n:x} of A : J {{}};\n", "")


def factories_under_homes(size):
    """Factories of one abstract home, and concrete homes that implement it."""
    homes = "".join(f"storagehome h{n:x} of T implements J {{}};\n" for n in range(size // 256))
    back = f"}};\nstoragetype T implements A {{}};\n{homes}"
    return filled(size, "abstract storagetype A {};\nabstract storagehome J of A {", lambda n: f"factory f{n:x}();", back)


def keys_under_homes(size):
    """Keys of one abstract home, and concrete homes that implement it: its lines are too long."""
    homes = "".join(f"storagehome h{n:x} of T implements J {{}};\n" for n in range(size // 256))
    back = f"}};\nstoragetype T implements A {{}};\n{homes}"
    front = "abstract storagetype A { state long m; };\nabstract storagehome J of A {"
    return filled(size, front, lambda n: f"key k{n:x}(m);", back)


def homes_with_factories(size):
    """Homes in a chain, each with a factory of its own."""
    chain = below("abstract storagehome h", "h", lambda n: f"factory f{n:x}();")
    front = "abstract storagetype A {};\nabstract storagehome h of A {};\n"
    return filled(size, front, lambda n: chain(n).replace(" : ", " of A : "), "")


def factories_down_a_chain(size):
    """Abstract homes in a chain, each with a factory of its own, and concrete homes that implement the last."""
    chain = below("abstract storagehome b", "b", lambda n: f"factory f{n:x}();")
    front = "abstract storagetype A {};\nstoragetype T implements A {};\nabstract storagehome b of A {};\n"
    homes = filled(size - size // 320 * 48, front, lambda n: chain(n).replace(" : ", " of A : "), "").rstrip(" ")
    last = homes.rsplit("storagehome ", 1)[1].split()[0]
    heirs = "".join(f"storagehome h{n:x} of T implements {last} {{}};\n" for n in range(size // 320))
    return f"{homes}{heirs}".ljust(size)


def names_behind_implements(size):
    """Half of the text: types in a chain. The other half: one name again and again behind `implements`."""
    chain = below("abstract storagetype b", "b")
    types = filled(size // 2, "abstract storagetype b {};\n", chain, "").rstrip(" ")
    last = types.rsplit("storagetype ", 1)[1].split()[0]
    front = f"{types}storagetype c implements {last} {{}};\nabstract storagehome h of b {{}};\nstoragehome G of c implements h"
    return filled(size, front, lambda n: ",h", " {};\n")


def types_with_members(size):
    """Types in a chain, each with a member: there is one too many at the 256th."""
    return filled(size, "abstract storagetype t {};\n", below("abstract storagetype t", "t", lambda n: f"state long m{n:x};"), "")


def long_member_names(size):
    """Half of the text: the names of 255 members of one type. The other half: types that inherit them."""
    names = ",".join(f"n{n:03d}".ljust(size // 510, "x") for n in range(255))
    front = f"abstract storagetype a {{ state long {names}; }};\n"
    return filled(size, front, lambda n: f"abstract storagetype b{n:x} : a {{}};\n", "")


def long_type_name(size):
    """A long name of a type that 255 members have, in 30 modules, and types that inherit them."""
    name = "n" * (size // 4)
    members = ",".join(f"x{n}" for n in range(255))
    front = f"typedef octet {name};\n{'module m { ' * 30}storagetype a {{ state {name} {members}; }};\n"
    return filled(size, front, lambda n: f"storagetype b{n:x} : a {{}};\n", "}; " * 30)


def referenced_types(size):
    """Types in a chain, to each of which a reference is declared, and homes of the last of them."""
    homes = "".join(f"storagetype T{n:x} implements Z {{}};\nstoragehome h{n:x} of T{n:x} {{}};\n" for n in range(size // 400))

    def piece(n):
        base = f" : b{n - 1:x}" if n else ""
        return f"abstract storagetype b{n:x}{base} {{}};\nabstract storagetype z{n:x} {{ state ref<b{n:x}> m; }};\n"

    room = size - len(homes) - 64
    types = filled(room, "", piece, "").rstrip(" ")
    last = types.rsplit("ref<", 1)[1].split(">")[0]
    return f"{types}abstract storagetype Z : {last} {{}};\n{homes}".ljust(size)


def circle_above(size):
    """Two types that are each other's base, and types in a chain below them."""
    front = "abstract storagetype q;\nabstract storagetype p : q {};\nabstract storagetype q : p {};\n"
    return filled(size, front, below("abstract storagetype t", "p"), "")


def homes_below_a_chain(size):
    """Types in a chain, and as many homes as there may be, each of a type that derives from the last."""
    count = min(HOMES, size // 256)
    homes = "".join(f"storagetype T{n:x} : t {{}};\nstoragehome h{n:x} of T{n:x} {{}};\n" for n in range(count))
    types = filled(size - len(homes) - 64, "storagetype s {};\n", below("storagetype s", "s"), "").rstrip(" ")
    last = types.rsplit("storagetype ", 1)[1].split()[0]
    return f"{types}storagetype t : {last} {{}};\n{homes}".ljust(size)


def homes_with_references(size):
    """Homes of types that have a reference each, as many as a shape has room for, and many small declarations."""
    count = min(1024, size // 512)
    homes = "".join(f"storagetype T{n:x} {{ state ref<z> m; }};\nstoragehome h{n:x} of T{n:x} {{}};\n" for n in range(count))
    return filled(size, f"abstract storagetype z {{}};\n{homes}", lambda n: f"typedef long x{n:x};\n", "")


def references_down_a_chain(size):
    """Types in a chain, and homes of types that have references to them, each to others."""
    count, each = min(512, size // 1024), 4
    types = filled(size // 2, "abstract storagetype s {};\n", below("abstract storagetype s", "s"), "").rstrip(" ")
    last = int(types.rsplit("storagetype s", 1)[1].split()[0], 16)
    front = [types]
    for n in range(count):
        members = "".join(f"state ref<s{(n * each + k) % last:x}> m{k};" for k in range(each))
        front.append(f"storagetype T{n:x} {{ {members} }};\nstoragehome h{n:x} of T{n:x} {{}};\n")
    return filled(size, "".join(front), lambda n: f"typedef long x{n:x};\n", "")


def references_to_many_types(size, filling=lambda n: f"typedef char y{n:x};\n"):
    """Types of 255 references, each to a type of its own, a home of each, and many small declarations."""
    count = min(3840, size // 272)
    front = ["".join(f"abstract storagetype s{n:x} {{}};\n" for n in range(count))]
    for first in range(0, count, 255):
        members = "".join(f"state ref<s{n:x}> m{n - first:x};" for n in range(first, min(first + 255, count)))
        front.append(f"storagetype R{first:x} {{ {members} }};\nstoragehome H{first:x} of R{first:x} {{}};\n")
    return filled(size, "".join(front), filling, "")


def references_over_many_bases(size):
    """The same, and types that name hundreds of bases each."""
    return references_to_many_types(size, lambda n: f"abstract storagetype y{n:x} : {','.join(['s0'] * 700)} {{}};\n")


def contested_names(size):
    """Half of the text: names that two abstract homes give to different keys. The other half: homes that inherit both."""
    names = range(size // 64)
    first = "".join(f"key k{n:x}(a);" for n in names)
    second = "".join(f"key k{n:x}(b);" for n in names)
    front = (
        f"abstract storagetype A {{ state long a, b; }};\nabstract storagehome I of A {{{first}}};\n"
        f"abstract storagehome J of A {{{second}}};\nabstract storagehome H of A : I {{}};\n"
    )
    return filled(size, front, lambda n: f"abstract storagehome h{n:x} of A : H {{}};\n", "")


def contested_by_heirs(size):
    """The same, where each heir adds one contested name to those that it has."""
    names = range(size // 64)
    first = "".join(f"key k{n:x}(a);" for n in names)
    second = "".join(f"abstract storagehome J{n:x} of A {{key k{n:x}(b);}};\n" for n in range(size // 256))
    front = f"abstract storagetype A {{ state long a, b; }};\nabstract storagehome I of A {{{first}}};\n{second}"
    return filled(size, front, lambda n: f"abstract storagehome h{n:x} of A : I {{ key l{n:x}(a); }};\n", "")


def contested_alone(size):
    """Two homes, of which each gives all names of the text to other keys than the other."""
    names = range(size // 32)
    first = "".join(f"key k{n:x}(a);" for n in names)
    second = "".join(f"key k{n:x}(b);" for n in names)
    front = f"abstract storagetype A {{ state long a, b; }};\nabstract storagehome I of A {{{first}}};\nabstract storagehome J of A {{{second}}};\n"
    return filled(size, front, lambda n: f"const long c{n:x} = 1;\n", "")


def contested_in_turn(size):
    """Heirs of two homes take turns, each of which has thousands of keys whose names a third home gives to other keys."""
    names = range(size // 128)
    first = "".join(f"key k{n:x}(a);" for n in names)
    second = "".join(f"key l{n:x}(a);" for n in names)
    third = "".join(f"key k{n:x}(b);key l{n:x}(b);" for n in names)
    front = (
        f"abstract storagetype A {{ state long a, b; }};\nabstract storagehome I of A {{{first}}};\n"
        f"abstract storagehome J of A {{{second}}};\nabstract storagehome K of A {{{third}}};\n"
    )
    return filled(size, front, lambda n: f"abstract storagehome h{n:x} of A : {'IJ'[n % 2]} {{}};\n", "")


def contested_own(size):
    """Heirs of one home with thousands of keys: another home gives their names, and those of a key of each heir, to other keys."""
    names = range(size // 128)
    first = "".join(f"key k{n:x}(a);" for n in names)
    second = "".join(f"key k{n:x}(b);key l{n:x}(b);" for n in names)
    front = f"abstract storagetype A {{ state long a, b; }};\nabstract storagehome I of A {{{first}}};\nabstract storagehome J of A {{{second}}};\n"
    return filled(size, front, lambda n: f"abstract storagehome h{n:x} of A : I {{ key l{n:x}(a); }};\n", "")


def contested_down_a_chain(size):
    """Homes in a chain, each with a key of its own whose name another home gives to another key."""
    names = "".join(f"key k{n:x}(b);" for n in range(size // 80))
    chain = below("abstract storagehome h", "h", lambda n: f"key k{n:x}(a);")
    front = f"abstract storagetype A {{ state long a, b; }};\nabstract storagehome J of A {{{names}}};\nabstract storagehome h of A {{}};\n"
    return filled(size, front, lambda n: chain(n).replace(" : ", " of A : "), "")


PROVIDED = """abstract storagetype A {};
abstract storagehome J of A {};
storagetype T implements A {};
storagehome H of T implements J {};
"""


def long_catalog_name(size):
    """Half of the text: the name of a catalog. The other half: what it provides."""
    return filled(size, f"{PROVIDED}catalog {'c' * (size // 2)} {{", lambda n: f"provides J j{n:x};", "};\n")


def catalogs_in_long_module(size):
    """Half of the text: the name of a module. The other half: catalogs in it."""
    return filled(size, f"{PROVIDED}module {'m' * (size // 2)} {{", lambda n: f"catalog c{n:x} {{ provides J j; }};", "};\n")


HOSTILE = [
    factories_under_heirs,
    factories_under_homes,
    keys_under_homes,
    homes_with_factories,
    factories_down_a_chain,
    names_behind_implements,
    types_with_members,
    long_member_names,
    long_type_name,
    referenced_types,
    circle_above,
    homes_below_a_chain,
    homes_with_references,
    references_down_a_chain,
    references_to_many_types,
    references_over_many_bases,
    contested_names,
    contested_by_heirs,
    contested_alone,
    contested_in_turn,
    contested_own,
    contested_down_a_chain,
    long_catalog_name,
    catalogs_in_long_module,
]
