#!/usr/bin/env python3
"""What the scripts know of the crates: which programs there are, what each stands on, and the checksum of all that it is made of.

    tools/crates.py programs             the programs of the venue, one a line
    tools/crates.py sum NAME             a line that says what the program NAME is proved from: a checksum, and the toolchain's line
    tools/crates.py kept NAME FILE       whether that line is what FILE has (exit 0 or 1)
"""
import hashlib
import re
import shutil
import sys
from pathlib import Path

TOP = Path(__file__).resolve().parent.parent
CRATES = TOP / "crates"
# What a crate is compiled from, and what it is proved and tried with.
COMPILED = ("src", "specs")
PROVED = (*COMPILED, "proofs", "data", "args", "status", "stdin", "stdout")


def programs():
    """The programs that users run; crates of cases are programs of the gate alone."""
    return sorted(main.parent.parent.name for main in CRATES.glob("peg*/src/main.rt"))


def lines():
    """Of each crate the names on its line of crates.txt, in the file's order: crates of this repository and libraries of the toolchain."""
    found = re.findall(r"^(?:app )?(\w+):(.*)$", (TOP / "crates.txt").read_text(), re.M)
    return {name: re.sub(r"\w+=\S+", "", names).split() for name, names in found}


def below(name):
    """The crates of this repository that a crate stands on, each after those that it stands on itself, and at last the crate."""
    stands_on, order = lines(), []

    def visit(crate):
        for it in stands_on[crate]:
            if it in stands_on:
                visit(it)
        if crate not in order:
            order.append(crate)

    visit(name)
    return order


def kit():
    """The folder of the toolchain, or None where `rt` is not on the path."""
    rt = shutil.which("rt")
    return Path(rt).resolve().parent.parent if rt else None


def kit_line():
    """The line by which the toolchain names itself, or an empty text."""
    folder = kit()
    return (folder / "KIT-ID").read_text().strip() if folder and (folder / "KIT-ID").is_file() else ""


def checksum(name, parts, more=""):
    """The SHA-256 of those parts of a crate and of all crates that it stands on."""
    taken = hashlib.sha256()
    stands_on = lines()

    def take(*texts):
        for it in texts:
            taken.update(f"{len(it)} ".encode() + it)

    take(more.encode())
    for crate in below(name):
        take(crate.encode(), " ".join(stands_on[crate]).encode())
        for part in parts:
            place = CRATES / crate / part
            files = sorted(place.rglob("*")) if place.is_dir() else [place]
            for file in files:
                if file.is_file():
                    take(str(file.relative_to(CRATES)).encode(), file.read_bytes())
    return taken.hexdigest()


def mark(name, parts, more=""):
    """A line that says what a program is made from: the checksum of its sources, and the toolchain's line."""
    return f"{checksum(name, parts, more)} {kit_line()}\n"


def is_kept(file, wanted):
    """Whether a file has this mark. Without a toolchain what was made by one is taken as it is."""
    kept = file.read_text() if file.is_file() else ""
    return kept == wanted or (kit() is None and kept.split(" ")[0] == wanted.split(" ")[0])


def proved_mark(name):
    return mark(name, PROVED, (TOP / "HANDLES").read_text())


def main(words):
    known = len(words) > 1 and words[1] in lines()
    if words == ["programs"]:
        print("\n".join(programs()))
    elif known and len(words) == 2 and words[0] == "sum":
        print(proved_mark(words[1]), end="")
    elif known and len(words) == 3 and words[0] == "kept":
        return 0 if is_kept(Path(words[2]), proved_mark(words[1])) else 1
    else:
        print(__doc__.strip(), file=sys.stderr)
        return 2
    return 0


if __name__ == "__main__":
    sys.exit(main(sys.argv[1:]))
