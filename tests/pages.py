"""The examples of the pages. Each block of a page says by the word behind its fence what it is, and by that it is tried:

    psdl       a text in which nothing is wrong; a second word is its name
    canonical  the canonical text of the text in front of it, or of the one that is named
    shape      its shape text
    faults     texts of one line, each with a line under it that marks the place of its fault: `^ 1:32 C1 Redefined`
    script     lines of a script, each with its reply behind two blanks or more; a second word names the text in examples/, else it is cells.psdl
    console    commands behind `$ `, each with what it prints; a line `..` stands for any lines
    records    lines of the program record_cases, each with its answer under it; `text` has none, nor has a line that begins with `#`
    journal    lines of the program journal_cases, each with its answer under it; `store` and `octets` have none, nor has a line that begins with `#`
    pages      lines of the program page_cases, likewise
    stores     lines of the program recovery_cases, likewise: `init`, `mount`, `run`, `crashes` and `sum` have an answer
    refusals   texts of one line, and octets of records with a line under them that marks the place of the refusal: `^ BadBool(15)`

Blocks of the words `grammar` and `commands` are not tried: notation, and commands that prove or build. Any other block is a failed case, and so
is a page on which nothing is tried."""
import glob
import os
import re

from running import cells, contents, each, ended, examples, expect, expect_answer, journal_cases, lines_of, page_cases, program, record_cases, recovery_cases, shortened, tell, top, written

BLOCK = re.compile(r"^```([^\n]*)\n(.*?)^```$", re.M | re.S)
EXAMPLE = re.compile(r"^\.EX\n(.*?)^\.EE$", re.M | re.S)
NOT_TRIED = ["grammar", "commands"]


class Page:
    """A page, the texts that were named on it, and how many cases it has."""

    def __init__(self, folder, path):
        self.folder, self.name, self.texts, self.cases = folder, os.path.relpath(path, top), {}, 0

    def told(self, what):
        self.cases += 1
        return f"{self.name}: {what}"

    def psdl(self, block, name=""):
        run = ended([program, "check", written(self.folder, block.encode())])
        status, spoken, complaint = run
        canonical, _, shape = spoken.partition(b"--\n")
        again = ended([program, "check", written(self.folder, canonical)])
        same = (status, complaint) == (0, b"") and again == run
        tell(self.told(block), same, shortened(run))
        self.texts[name] = self.texts[""] = (canonical, shape)

    def canonical(self, block, name=""):
        seen = self.texts.get(name, (b"", b""))[0]
        tell(self.told(block), seen == block.encode(), seen)

    def shape(self, block, name=""):
        seen = self.texts.get(name, (b"", b""))[1]
        tell(self.told(block), seen == block.encode(), seen)

    def faults(self, block):
        for text, fault in marked(block.splitlines(), f"{self.name}: "):
            expect_answer(self.folder, self.told(text), text, f"schema {fault}\n".encode())

    def script(self, block, name="cells"):
        parts = [re.fullmatch(r"(.*?\S)(?:  +(\S.*))?", line) for line in block.splitlines() if line]
        script = "".join(f"{part[1]}\n" for part in parts)
        spoken = "".join(f"{part[2]}\n" for part in parts if part[2])
        schema = os.path.join(examples, f"{name}.psdl")
        expect(self.told(script), ["run", schema, os.path.join(self.folder, "page.store")], script.encode(), 0, spoken.encode())

    def console(self, block):
        """The commands are run where `./pssd` is the program and `examples` are the examples."""
        for number, command in enumerate(re.split(r"^\$ ", block, flags=re.M)):
            line, _, wanted = command.partition("\n")
            if number:
                run = ended(["bash", "-c", line], cwd=self.folder)
                pattern = "".join(".*" if part == "..\n" else re.escape(part) for part in wanted.splitlines(keepends=True))
                same = re.fullmatch(pattern, run[1].decode(), re.S) and run[2] == b""
                tell(self.told(line), bool(same), shortened(run))

    def asked(self, lines, cases=record_cases):
        """What a program of cases answers to these lines."""
        status, spoken, complaint = ended([cases], "".join(f"{line}\n" for line in lines).encode())
        if (status, complaint) != (0, b""):
            tell(self.told(os.path.basename(cases)), False, (status, complaint))
        return spoken.decode().splitlines()

    def answers(self, lines, wanted):
        seen = self.asked(lines)
        questions = [line for line in lines if not line.startswith("text ")]
        seen += ["no answer"] * (len(questions) - len(seen))
        for question, want, told in zip(questions, wanted, seen):
            tell(self.told(question), told == want, told)

    def records(self, block):
        lines = [line for line in block.splitlines() if line and not line.startswith("#")]
        asked, wanted = [], []
        while lines:
            line = lines.pop(0)
            asked.append(joined(line) if line.startswith("decode ") else line)
            if not line.startswith("text "):
                answer = lines.pop(0) if lines else ""
                wanted.append(joined(answer).strip() if line.startswith("encode ") and not answer.startswith("BADVALUE") else answer)
        self.answers(asked, wanted)

    def pages(self, block):
        self.journal(block, page_cases)

    def stores(self, block):
        """Octets may have blanks between them."""
        lines = [line for line in block.splitlines() if line and not line.startswith("#")]
        asked, questions, wanted = [], [], []
        while lines:
            line = lines.pop(0)
            words = line.split(" ")
            places = {"octets": 2, "change": 3}.get(words[0], len(words))
            asked.append(" ".join([*words[:places], "".join(words[places:])]).rstrip())
            if words[0] in ("init", "mount", "run", "crashes", "sum"):
                questions.append(line)
                wanted.append(lines.pop(0) if lines else "")
        seen = self.asked(asked, recovery_cases)
        seen += ["no answer"] * (len(questions) - len(seen))
        for question, want, told in zip(questions, wanted, seen):
            tell(self.told(question), told == want, told)

    def journal(self, block, program=journal_cases):
        """Octets may have blanks between them."""
        lines = [line for line in block.splitlines() if line and not line.startswith("#")]
        asked, questions, wanted = [], [], []
        while lines:
            verb, _, rest = lines.pop(0).partition(" ")
            words = rest.split(" ")
            places = {"append": 2, "octets": 1}.get(verb, len(words))
            asked.append(" ".join([verb, *words[:places], "".join(words[places:])]).rstrip())
            if verb not in ("store", "octets"):
                answer = lines.pop(0) if lines else ""
                questions.append(asked[-1])
                wanted.append(answer.replace(" ", "") if verb == "show" else answer)
        seen = self.asked(asked, program)
        seen += ["no answer"] * (len(questions) - len(seen))
        for question, want, told in zip(questions, wanted, seen):
            tell(self.told(question), told == want, told)

    def refusals(self, block):
        """Octets are pairs of digits with blanks between them; any other line is the text for those that follow."""
        asked, wanted, before = [], [], ""
        for line in block.splitlines():
            mark = re.fullmatch(r"( *)\^ +(\w+)(\((\d+)\))?", line)
            if mark:
                place = octets_in_front(before, len(mark[1]))
                if mark[4] is not None and place != int(mark[4]):
                    tell(self.told(line), False, f"the mark stands at octet {place}")
                wanted.append(mark[2] + (mark[3] or ""))
            elif re.fullmatch(r"([0-9a-f]{2} *)+", line):
                asked.append("decode " + line.replace(" ", ""))
            else:
                asked.append(f"text {line}")
            before = line
        self.answers(asked, wanted)


def joined(line):
    """A line whose octets stand without blanks: `decode 00 01` as `decode 0001`."""
    verb, between, octets = line.partition("decode ")
    return verb + between + octets.replace(" ", "") if between else line.replace(" ", "")


def octets_in_front(line, column):
    return len(line[:column].split())


def marked(lines, where=""):
    """Texts of one line, each with a line under it that marks the place of its fault."""
    mark = re.compile(r"( *)\^ 1:(\d+) ([CS]\d+ \w+)$")
    before = ""
    for line in lines:
        under = mark.match(line)
        if under and len(under[1]) + 1 == int(under[2]):
            yield before.encode(), f"1:{under[2]} {under[3]}"
        elif under:
            tell(where + line, False, "the mark stands elsewhere")
        before = line


def try_page(folder, path):
    page = Page(folder, path)
    text = contents(path).decode()
    if path.endswith(".md"):
        blocks = BLOCK.findall(text)
    else:
        # A page of the manual: each of its examples is of a console.
        blocks = [("console", block.replace("\\-", "-").replace("\\&", "").replace("\\e", "\\")) for block in EXAMPLE.findall(text)]
    for words, block in blocks:
        kind, _, name = words.partition(" ")
        if kind in NOT_TRIED:
            continue
        if kind not in ("psdl", "canonical", "shape", "faults", "script", "console", "records", "journal", "pages", "stores", "refusals"):
            tell(page.told(block), False, f"a block of the kind {kind!r}")
        elif name:
            getattr(page, kind)(block, name)
        else:
            getattr(page, kind)(block)
    if not page.cases:
        tell(page.name, False, "nothing on it is tried")


def pages(folder):
    """Each page has a folder of its own, in which the stores of its examples stay from one block to the next."""
    found = glob.glob(os.path.join(top, "*.md")) + glob.glob(os.path.join(top, "docs", "*"))
    for path in each("the pages", sorted(found)):
        own = os.path.join(folder, os.path.relpath(path, top).replace(os.sep, "_"))
        os.mkdir(own)
        for name, to in [("pssd", program), ("examples", examples)]:
            os.symlink(os.path.abspath(to), os.path.join(own, name))
        try_page(own, path)


# ---- what the pages say of the crates


def rows(page, heading):
    """The cells of the rows of the first table behind a heading."""
    behind = contents(os.path.join(top, page)).decode().partition(f"\n## {heading}\n")[2]
    table = re.search(r"^\|[^\n]*\n\|[-| ]*\n((?:\|[^\n]*\n)+)", behind, re.M)
    return [[cell.strip() for cell in line.strip("|").split(" | ")] for line in table[1].splitlines()] if table else []


def listed():
    """The crates of crates.txt, each with the libraries that it stands on."""
    lines = [line.partition(":") for line in lines_of(os.path.join(top, "crates.txt"))]
    return [(name, libraries.split()) for name, _, libraries in lines]


def below(name, crates):
    """A crate of the repository with all that it stands on."""
    return {name}.union(*(below(library, crates) for library in crates[name] if library in crates))


def crates_with(pattern):
    """The crates of which there is an edit: `*` stands for their names."""
    before = os.path.join(top, pattern.partition("*")[0])
    return {path[len(before) :].partition(os.sep)[0] for path in glob.glob(os.path.join(top, pattern))}


def tables(_):
    """The tables of crates are in the order of crates.txt, and those of edits name the crates that have some."""
    crates = listed()
    names = [name for name, _ in crates]
    seen = [(row[0], row[2].strip(" |").replace("`", "").replace(",", "").split()) for row in rows("docs/ARCHITECTURE.md", "Crates, lowest first")]
    tell("docs/ARCHITECTURE.md has the crates of crates.txt", seen == crates, [row for row in seen if row not in crates] + [row for row in crates if row not in seen])
    seen = [row[0] for row in rows("README.md", "What is proved")]
    in_order = sorted(seen, key=lambda name: names.index(name) if name in names else -1)
    tell("README.md has the crates in the order of crates.txt", seen == in_order and set(seen) <= set(names), seen)
    text = contents(os.path.join(top, "README.md")).decode()
    sentence = re.search(r"The program does not run ([^.]*)\.", text)
    seen = re.findall(r"`(\w+)`", sentence[1]) if sentence else []
    programs = {name for name in names if os.path.exists(os.path.join(top, "crates", name, "src", "main.rt"))}
    run = below("pssd", dict(crates)) | programs
    tell("README.md has the crates that the program does not run", seen == [name for name in names if name not in run], seen)
    for folder, pattern in [("crates/NAME/must-fail/", "crates/*/must-fail/*.edit"), ("tests/edits/NAME/", "tests/edits/*/*.edit")]:
        row = re.search(rf"^\| `{folder}` \|[^|]*\| ([^|]*) \|$", text, re.M)
        seen = row[1].split(", ") if row else []
        in_order = [name for name in names if name in crates_with(pattern)]
        tell(f"README.md has the crates with edits in {folder}", seen == in_order, seen)
