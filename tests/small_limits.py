"""Commands at the limits of a connector: `limits/small.lines` has them, each with its reply behind two blanks, and in front of them a
schema and limits that are small. The program serves the standard limits alone, so a program of its own, `tables/connector.txt`, reads
the lines; `rt try` compiles it without any proof."""
import os
import shutil

from plain_lists import tried, workspace
from running import here, lines_of, tell

LIBRARIES = ["connector", "pss_recovery", "psdl_syntax", "psdl_check", "script_text", "case_lines"]


def small_limits(folder):
    if shutil.which("rt") is None:
        return print("note: no rt, so that tests/limits/small.lines is not tried")
    said, replies = [], []
    for line in lines_of(os.path.join(here, "limits", "small.lines")):
        if line and not line.startswith("#"):
            command, _, reply = line.partition("  ")
            said.append(command)
            replies += [reply] if reply else []
    crates = workspace(folder, {"connector": LIBRARIES})
    status, spoken, complaint = tried(crates, "connector", "\n".join(said).encode())
    seen = spoken.decode(errors="replace").splitlines()
    differences = [pair for pair in zip(seen, replies) if pair[0] != pair[1]]
    tell("tests/limits/small.lines", (status, seen) == (0, replies), (status, len(seen), len(replies), differences[:3], complaint[-500:]))
