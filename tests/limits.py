"""Texts at the limits of the checks, and long texts. A case is its name, the text, and either all that `pssd check` speaks for it or
the line, column and kind of its fault."""

GREATEST = 2**127 - 1
MEBIBYTE = 1048576
# The ends of what a constant of each type may be.
RANGES = [
    ("short", -(2**15), 2**15 - 1),
    ("unsigned short", 0, 2**16 - 1),
    ("long", -(2**31), 2**31 - 1),
    ("unsigned long", 0, 2**32 - 1),
    ("long long", -(2**63), 2**63 - 1),
    ("unsigned long long", 0, 2**64 - 1),
    ("octet", 0, 255),
]

LEAST = f"(-{GREATEST} - 1)"

# Expressions with the number that each stands for, as a bound.
VALUES = [
    ("7 / 2", 3),
    ("10 + (-7 / 2)", 7),
    ("10 + (7 / -2)", 7),
    ("10 + (-7 % 2)", 9),
    ("10 + (7 % -2)", 11),
    (f"10 + {LEAST} % -1", 10),
    ("10 + (-5 >> 1)", 7),
    ("10 + (-1 >> 63)", 9),
    ("1 << 31", 2**31),
    ("(-1 << 63 >> 62) + 10", 8),
    (f"{GREATEST} >> 63 >> 63", 1),
    ("6 & -4", 4),
    ("10 + (-6 | 3)", 5),
    ("10 + (-6 ^ 3)", 3),
    ("1 | 2 ^ 3 & 6 << 1 + 1", 3),
    ("~0 - 18446744073709551610", 5),
    ("2 + 3 * 4 - 5", 9),
    ("+7 - -3", 10),
    ("20 - 5 - 5", 10),
    ("100 / 5 / 2 * 3 % 7", 2),
]


def marked(text):
    """The text without its mark `@`, and the line and column where this stands."""
    front, behind = text.split("@")
    line = front.rsplit("\n", 1)[-1]
    return front + behind, f"{front.count(chr(10)) + 1}:{len(line) + 1}"


def refused(name, text, kind):
    text, place = marked(text)
    return name, text.encode(), f"{place} {kind}"


def sound(name, canonical, shape=""):
    """A text that is canonical itself."""
    return name, canonical.encode(), (canonical + "--\n" + shape).encode()


# ---- members


def of_members(count, mark=""):
    return f"storagetype {mark}T {{\n" + "".join(f"  state long m{n};\n" for n in range(count)) + "};\n"


def members():
    yield sound("255 members", of_members(255))
    yield refused("256 members", of_members(256, "@"), "C17 Limit")
    yield refused("256 members in an abstract type", "abstract " + of_members(256, "@"), "C17 Limit")
    yield refused("256 members and an unknown base", of_members(256).replace("T {", "T : @Unknown {"), "C2 Unknown")
    derived = "storagetype {}U : T {{\n" + "".join(f"  state long n{n};\n" for n in range(55)) + "{}}};\n"
    yield sound("200 members and 55 more", of_members(200) + derived.format("", ""))
    yield refused("200 members and 56 more", of_members(200) + derived.format("@", "  state long last;\n"), "C17 Limit")
    twice = "abstract storagetype A : T {\n};\nabstract storagetype B : T {\n};\nstoragetype U implements A, B {\n};\n"
    yield sound("members that come twice count once", "abstract " + of_members(200) + twice)


# ---- homes


def home_names():
    digits = "0123456789abcdefghijklmnopqrstuvwxyz"
    return [f"{letter}{one}{two}" for letter in "hgwz" for one in digits for two in digits]


def of_homes(count, mark_last=""):
    names = home_names()[:count]
    names[-1] = mark_last + names[-1]
    return "storagetype T {\n};\n" + "".join(f"storagehome {name} of T {{\n}};\n" for name in names)


def homes():
    shape = "".join(f"home {n + 1} 0 {name}\n" for n, name in enumerate(home_names()[:4096]))
    yield sound("4096 homes", of_homes(4096), shape)
    yield refused("4097 homes", of_homes(4097, "@"), "C17 Limit")


# ---- nesting


def of_arrays(count, mark=""):
    return f"typedef long {mark}A" + "[1]" * count + ";\n"


def of_sequences(count, mark=""):
    return "typedef " + "sequence<" * count + "long" + ">" + " >" * (count - 1) + f" {mark}S;\n"


def of_structs(count, mark=""):
    first = "struct {}S1 {{\n  long x;\n}};\n"
    other = "struct {}S{} {{\n  S{} x;\n}};\n"
    if count == 1:
        return first.format(mark)
    return first.format("") + "".join(other.format(mark if n == count else "", n, n - 1) for n in range(2, count + 1))


def of_typedefs(count, mark=""):
    step = "typedef sequence<T{}> {}T{};\n"
    return "typedef long T0;\n" + "".join(step.format(n - 1, mark if n == count else "", n) for n in range(1, count + 1))


def nestings():
    for name, of in [("arrays", of_arrays), ("sequences", of_sequences), ("structs", of_structs), ("typedefs", of_typedefs)]:
        yield sound(f"{name} of nesting 32", of(31))
        yield refused(f"{name} of nesting 33", of(32, "@"), "C17 Limit")
    yield sound("names of a type nest no deeper", of_arrays(31) + "typedef A B;\ntypedef B C;\n")
    yield refused("an array of a deepest type", of_structs(31) + "typedef S31 @B[1];\n", "C17 Limit")


# ---- default records


def of_record(parts, mark=""):
    types = "".join(f"typedef {part} B{n}{size};\n" for n, (part, size) in enumerate(parts))
    states = "".join(f"  state B{n} m{n};\n" for n in range(len(parts)))
    return types + f"storagetype {mark}T {{\n{states}}};\n"


# Members, the last of them an array of octets, and the most octets that this may have: the record has 8,000 octets then.
RECORDS = [
    ("octets", [], 7999),
    ("999 strings", [("string", "[999]")], 7),
    ("a long long", [("long long", "")], 7984),
    ("a struct", [("octet", ""), ("unsigned long", "[2]")], 7988),
    ("a sequence", [("sequence<long long>", "")], 7992),
]


def records():
    for name, front, most in RECORDS:
        yield sound(f"a record of 8000 octets with {name}", of_record(front + [("octet", f"[{most}]")]))
        yield refused(f"a record of 8001 octets with {name}", of_record(front + [("octet", f"[{most + 1}]")], "@"), "C17 Limit")
    ahead = [("octet", "[7991]"), ("long long", "")]
    yield sound("a record of 8000 octets with padding", of_record(ahead))
    yield refused("a record of 8008 octets with padding", of_record([("octet", "[7992]"), ("long long", "")], "@"), "C17 Limit")
    nil = "storagetype {}T {{\n  state B0 m0;\n  state ref<T> m1;\n}};\n"
    yield sound("a record of 8000 octets with a reference", "typedef octet B0[7983];\n" + nil.format(""))
    yield refused("a record of 8008 octets with a reference", "typedef octet B0[7988];\n" + nil.format("@"), "C17 Limit")


# ---- the shape text


def of_shape(member, mark="", behind=""):
    return f"storagetype T {{\n  state long {member};\n}};\nstoragehome {mark}H of T {{\n}};\n{behind}"


def of_structs_in(count, mark=""):
    states = "".join(f"  state S m{n};\n" for n in range(count))
    return f"storagetype T {{\n{states}}};\nstoragehome {mark}H of T {{\n}};\n"


def shapes():
    # `home 1 0 H` and `member NAME long` with their LF are 11 and 13 octets beside the name.
    most = "m" * (65536 - 24)
    yield sound("a shape of 65536 octets", of_shape(most), f"home 1 0 H\nmember {most} long\n")
    yield refused("a shape of 65537 octets", of_shape(most + "m", "@"), "C17 Limit")
    yield refused("a shape of 65546 octets", of_shape(most, "", "storagetype U {\n};\nstoragehome @G of U {\n};\n"), "C17 Limit")
    # `key k 1 0` with its LF has 10.
    keyed = "storagetype T {{\n  state long {};\n}};\nstoragehome {}H of T {{\n  key k({});\n}};\n"
    most = most[10:]
    yield sound("a shape of 65536 octets with a key", keyed.format(most, "", most), f"home 1 0 H\nmember {most} long\nkey k 1 0\n")
    yield refused("a shape of 65537 octets with a key", keyed.format(most + "m", "@", most + "m"), "C17 Limit")
    # A struct is told again in each member, so a short text may have a long shape.
    struct = "struct S {\n" + "".join(f"  octet f{n};\n" for n in range(100)) + "};\n"
    parts = ",".join(f"f{n}:octet" for n in range(100))
    told = "home 1 0 H\n" + "".join(f"member m{n} struct({parts})\n" for n in range(60))
    yield sound("60 members of a struct of 100", struct + of_structs_in(60), told)
    yield refused("79 members of a struct of 100", struct + of_structs_in(79, "@"), "C17 Limit")
    yield refused("another fault comes before the length of the shape", of_shape("m" * 65513, "", "const octet c = @256;\n"), "C14 ConstRange")


# ---- expressions


def ranges():
    for name, least, most in RANGES:
        yield sound(f"the ends of {name}", f"const {name} a = {least};\nconst {name} b = {most};\n")
        yield refused(f"below {name}", f"const {name} a = @{least - 1};", "C14 ConstRange")
        yield refused(f"above {name}", f"const {name} a = @{most + 1};", "C14 ConstRange")


def bounds():
    for form in ["typedef string<{}> A;\n", "typedef sequence<octet, {}> A;\n"]:
        for number in [1, 4294967295]:
            yield sound(f"the bound {number}", form.format(number))
        for number in ["0", "4294967296", "-1", "1 - 1"]:
            yield refused(f"the bound {number}", form.format("@" + number), "C14 ConstRange")
    for number in [1, 65535]:
        yield sound(f"the dimension {number}", f"typedef octet A[2][{number}];\n")
    for number in ["0", "65536", "-1", "32768 * 2"]:
        yield refused(f"the dimension {number}", f"typedef octet A[2][@{number}];\n", "C14 ConstRange")


def of_bound(text):
    return f"typedef sequence<octet, {text}> A;\nstoragetype T {{\n  state A a;\n}};\nstoragehome H of T {{\n}};\n"


def values():
    for text, number in VALUES:
        yield sound(f"the value of {text}", of_bound(text), f"home 1 0 H\nmember a seq(octet,{number})\n")
    _, _, spoken = sound("", of_bound("15 + 31"), "home 1 0 H\nmember a seq(octet,46)\n")
    yield "the value of 017 + 0x1F", of_bound("017 + 0x1F").encode(), spoken


def shifts():
    for by in range(64):
        yield sound(f"shifts by {by}", f"const unsigned long long a = 1 << {by};\nconst long b = -1 >> {by};\n")
    for by in ["64", "65", "-1", "(1 << 40)", str(GREATEST)]:
        for sign in ["<<", ">>"]:
            yield refused(f"a shift by {by}", f"const long a = @0 {sign} {by};\n", "C14 ConstRange")


# ---- long texts


def up_to(size, front, piece, back):
    """The text of as many pieces as a size leaves room for, and their number."""
    parts, length, n = [front], len(front) + len(back), 0
    while length + len(piece(n)) <= size:
        parts.append(piece(n))
        length += len(parts[-1])
        n += 1
    return "".join(parts) + back, n


def link(n):
    return f"const long c{n} = c{n - 1};\n" if n else "const long c0 = 1;\n"


def deep_modules(depth, body):
    front = "".join("  " * n + f"module m{n} {{\n" for n in range(depth))
    back = "".join("  " * n + "};\n" for n in reversed(range(depth)))
    return front + "".join("  " * depth + line + "\n" for line in body) + back


def long_texts():
    chain, count = up_to(MEBIBYTE, "", link, "")
    yield sound(f"{count} constants that name each other", chain)
    names, count = up_to(MEBIBYTE - 60, "const long first = 1;\n", lambda n: f"const long c{n} = first;\n", "")
    yield sound(f"{count} constants that name the first", names)
    yield refused(f"{count} names, and one of them again", names + f"const long @C{count - 1} = 1;\n", "C1 Redefined")
    yield refused(f"{count} names, and an unknown one", names + f"const long last = @c{count};\n", "C2 Unknown")
    yield refused(f"{count} names, and one in capitals", names + f"const long last = @C{count - 1};\n", "C3 WrongCase")
    opened, count = up_to(MEBIBYTE, "", lambda n: f"module M {{\n  const long c{n} = 1;\n}};\n", "")
    yield sound(f"a module opened {count} times", opened)
    others, count = up_to(MEBIBYTE, "const long first = 1;\n", lambda n: f"module m{n} {{\n  const long c = first;\n}};\n", "")
    yield sound(f"{count} modules", others)
    outer = "const long first = 1;\n"
    yield sound("names through 32 modules", outer + deep_modules(32, [f"const long c{n} = first;" for n in range(10000)]))
    deep = deep_modules(32, [f"const long c{n} = 1;" for n in range(10000)])
    path = "::".join(f"m{n}" for n in range(32))
    yield sound("a name of 33 parts", deep + f"const long last = {path}::c9999;\n")
    yield refused("a name of 33 parts in another case", deep + f"const long last = @{path}::C9999;\n", "C3 WrongCase")
    bases, count = up_to(MEBIBYTE, "abstract storagetype T {\n};\n", lambda n: f"abstract storagetype T{n} : T{n - 1 if n else ''} {{\n}};\n", "")
    yield sound(f"{count} types, each derived from the one in front of it", bases)
    renamed, count = up_to(MEBIBYTE, "typedef long T;\n", lambda n: f"typedef T{n - 1 if n else ''} T{n};\n", "")
    yield sound(f"{count} typedefs, each of the one in front of it", renamed)
    arrays = "typedef long A0;\n" + "".join(f"typedef A{n - 1} {'@' if n == 32 else ''}A{n}[1];\n" for n in range(1, 30001))
    yield refused("30000 arrays, each of the one in front of it", arrays, "C17 Limit")
    implementing = "".join(f"abstract storagetype A{n} {{\n}};\n" for n in range(10000))
    listed = ", ".join(f"A{n}" for n in range(10000))
    yield sound("a type that implements 10000", implementing + f"storagetype T implements {listed} {{\n}};\n")


def cases():
    for make in [members, homes, nestings, records, shapes, ranges, bounds, values, shifts, long_texts]:
        yield from make()
