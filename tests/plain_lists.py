"""Programs that compare the calls of a library with plain lists, or with what was worked out apart from it: `tables/NAME.txt` for the
library NAME, with `told.txt`, which they share. `rt try` compiles them without any proof, in a temporary folder. It stops them at a bad
access, and then has what they printed among its complaints."""
import os
import shutil

from pages import below, listed
from running import contents, ended, here, tell, top

# Seconds for the building and the run of a program, which take half a minute of the processor.
LONGEST = 600

# All that each library's program prints. The count shows that no operation was left out.
PROGRAMS = {
    "pss_base": b"pss_base: 75 operations, 0 differences\n",
    "pss_disk": b"pss_disk: 38 operations, 0 differences\n",
    "link_pool": b"link_pool: 18050 operations, 0 differences\n",
    "key_index": b"key_index: 78942 operations, 0 differences\n",
    "lock_table": b"lock_table: 66353 operations, 0 differences\n",
    "incarnations": b"incarnations: 165861 operations, 0 differences\n",
    "storage_home": b"storage_home: 1493 operations, 0 differences\n",
    "pss_session": b"pss_session: 5000 operations, 0 differences\n",
    "tx_session": b"tx_session: 3855 operations, 0 differences\n",
}


def workspace(folder, programs):
    """A crate NAME_table for each program, the libraries that it names, and those below them. Gives the folder of the crates."""
    all_crates = dict(listed())
    crates = os.path.join(folder, "crates")
    lines = []
    used = {name: set().union(*(below(library, all_crates) for library in libraries)) for name, libraries in programs.items()}
    for library in sorted(set().union(*used.values())):
        lines.append(f"{library}: {' '.join(all_crates[library])}\n")
        for part in ("src", "specs", "proofs"):
            if os.path.isdir(os.path.join(top, "crates", library, part)):
                shutil.copytree(os.path.join(top, "crates", library, part), os.path.join(crates, library, part))
    for name, libraries in used.items():
        lines.append(f"{name}_table: {' '.join(sorted(libraries))}\n")
        source = os.path.join(crates, f"{name}_table", "src")
        os.makedirs(source)
        text = os.path.join(here, "tables", f"{name}.txt")
        shutil.copy(text, os.path.join(source, "main.rt"))
        if b"\nmod told;" in contents(text):
            shutil.copy(os.path.join(here, "tables", "told.txt"), os.path.join(source, "told.rt"))
    with open(os.path.join(folder, "crates.txt"), "w") as file:
        file.writelines(lines)
    return crates


def tried(crates, name, script=b""):
    """What `rt try` comes to. It also has an interpreter, for which these programs are too long: it gets one step."""
    return ended(["rt", "try", "--steps", "1"], script, longest=LONGEST, cwd=os.path.join(crates, f"{name}_table"))


def plain_lists(folder):
    if shutil.which("rt") is None:
        return print("note: no rt, so that the programs in tests/tables/ are not tried")
    crates = workspace(folder, {name: [name] for name in PROGRAMS})
    for name, told in PROGRAMS.items():
        status, spoken, complaint = tried(crates, name)
        seen = status, spoken[:1000], spoken[-100:], complaint[:1000], complaint[-500:]
        tell(f"tests/tables/{name}.txt", (status, spoken) == (0, told), seen)
