"""The crates of the repository and their files, for check_names and seconds."""
import os

TOP = os.path.dirname(os.path.dirname(os.path.realpath(__file__)))
PARTS = ("src", ".rt"), ("specs", ".antt"), ("proofs", ".antt")


def read(path):
    with open(path, encoding="utf-8") as it:
        return it.read()


def crates_listed():
    """The crates of crates.txt, in their order."""
    lines = (it.split("#")[0].split() for it in read(f"{TOP}/crates.txt").splitlines())
    return [it[0].rstrip(":") for it in lines if it]


def files_of(crate, part, ending):
    """The files with that ending below a folder of the crate."""
    for folder, _, names in os.walk(f"{TOP}/crates/{crate}/{part}"):
        yield from (f"{folder}/{name}" for name in sorted(names) if name.endswith(ending))


def lines_in(path):
    return read(path).count("\n")


def lines_of(crate):
    """How many lines of code, of definitions and of proofs the crate has."""
    return [sum(map(lines_in, files_of(crate, *it))) for it in PARTS]
