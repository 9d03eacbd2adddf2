"""What the measurements share: their programs, proved and built over copies of the crates, and the verdict over their ratios.

The texts of a program lie in the folder of its measurement under the names that they have in a crate, with .txt behind the name: `program.txt` is
`src/main.rt`, `proofs/put/Answers.txt` is `proofs/put/Answers.antt`. The crate's name is `measure_` and the folder's.

Proving takes longer than measuring, and needs no quiet machine. With the words `--build-only FOLDER` a script builds there, and does not measure; with
`--built FOLDER` it measures what was built there. One folder serves all scripts: a library is proved in it once."""
import argparse
import contextlib
import os
import shutil
import subprocess
import sys
import tempfile

here = os.path.dirname(os.path.abspath(__file__))
top = os.path.dirname(here)
PARTS = ["src", "specs", "proofs"]


def words():
    """The words behind the script's name."""
    parser = argparse.ArgumentParser(description=sys.modules["__main__"].__doc__, formatter_class=argparse.RawDescriptionHelpFormatter)
    step = parser.add_mutually_exclusive_group()
    step.add_argument("--build-only", metavar="FOLDER", help="build in this folder, and do not measure")
    step.add_argument("--built", metavar="FOLDER", help="measure what was built in this folder")
    return parser.parse_args()


@contextlib.contextmanager
def program(name, libraries):
    """The path of the program of `bench/NAME`, which uses these libraries."""
    asked = words()
    if asked.built:
        yield os.path.join(os.path.abspath(asked.built), path_of(name))
    elif asked.build_only:
        build(os.path.abspath(asked.build_only), name, libraries)
        sys.exit()
    else:
        with tempfile.TemporaryDirectory() as folder:
            build(folder, name, libraries)
            yield os.path.join(folder, path_of(name))


def path_of(name):
    return os.path.join("crates", f"measure_{name}", "out", f"measure_{name}")


def build(folder, name, libraries):
    """Proves and builds the program of `bench/NAME`, or ends with what refused it."""
    with open(os.path.join(top, "crates.txt")) as read:
        listed = read.read()
    for crate in (line.partition(":")[0] for line in listed.splitlines()):
        copy_crate(os.path.join(top, "crates", crate), os.path.join(folder, "crates", crate))
    with open(os.path.join(folder, "crates.txt"), "w") as out:
        out.write(f"{listed}measure_{name}: {libraries}\n")
    crate, built = os.path.join(folder, "crates", f"measure_{name}"), os.path.join(folder, path_of(name))
    copy_texts(os.path.join(here, name), crate)
    with contextlib.suppress(FileNotFoundError):
        os.remove(built)
    # `rt run` runs the program too and ends with its status, so what tells of success is that the program is there.
    told = subprocess.run(["rt", "run"], cwd=crate, stdin=subprocess.DEVNULL, stdout=subprocess.PIPE, stderr=subprocess.STDOUT, text=True)
    if not os.path.exists(built):
        sys.exit(told.stdout)


def copy_crate(crate, to):
    """Copies a library, and its proof where it is proved here."""
    for part in PARTS:
        shutil.rmtree(os.path.join(to, part), ignore_errors=True)
        if os.path.isdir(os.path.join(crate, part)):
            shutil.copytree(os.path.join(crate, part), os.path.join(to, part))
    proved = os.path.join("out", "rlib")
    if os.path.isdir(os.path.join(crate, proved)) and not os.path.isdir(os.path.join(to, proved)):
        shutil.copytree(os.path.join(crate, proved), os.path.join(to, proved))


def copy_texts(texts, crate):
    """Copies the texts of a program to their places in a crate."""
    for part in PARTS:
        shutil.rmtree(os.path.join(crate, part), ignore_errors=True)
    os.makedirs(os.path.join(crate, "src"))
    shutil.copy(os.path.join(texts, "program.txt"), os.path.join(crate, "src", "main.rt"))
    for part in ["specs", "proofs"]:
        for folder, _, names in os.walk(os.path.join(texts, part)):
            to = os.path.join(crate, os.path.relpath(folder, texts))
            os.makedirs(to)
            for name in names:
                shutil.copy(os.path.join(folder, name), os.path.join(to, name.replace(".txt", ".antt")))


def compiled(folder, source):
    """The path of the program that a text in C under `bench/` makes, built in this folder."""
    path = os.path.join(folder, os.path.splitext(os.path.basename(source))[0])
    subprocess.check_call(["cc", "-O2", "-o", path, os.path.join(here, source)])
    return path


def lines(path, *words):
    """The lines that a program prints, each as its words."""
    told = subprocess.run([path, *words], stdin=subprocess.DEVNULL, stdout=subprocess.PIPE, text=True, check=True).stdout
    return [line.split() for line in told.splitlines()]


def least(path, *words):
    """What a program tells in lines of a name, a size and a number: the least number of each name and size. Other work on the machine makes none less."""
    numbers = {}
    for name, size, number in lines(path, *words):
        numbers[name, int(size)] = min(int(number), numbers.get((name, int(size)), int(number)))
    return numbers


def on_one_processor():
    """Keeps this process, and those that it starts, on one processor: others may be slower, or share their pace with other work."""
    os.sched_setaffinity(0, {min(os.sched_getaffinity(0))})


def judge(ratios):
    """Tells ratios, each with its name and what it may be at most, or None where it is only told. Ends with 1 where one is above that."""
    ratios = list(ratios)
    for name, ratio, most in ratios:
        print(f"{name}: {ratio:.2f}" + (f" (wanted: at most {most})" if most is not None else ""))
    holds = all(most is None or ratio <= most for _, ratio, most in ratios)
    print("all hold" if holds else "not all hold")
    sys.exit(not holds)
