#!/usr/bin/env python3
"""Copies crates of this repository, and those that they stand on, into a repository of one's own.

    tools/take.py FOLDER CRATE..

FOLDER is the top of that repository. Each crate's src/, specs/ and proofs/ come to FOLDER/crates/CRATE, without its tests' edits
and what rt made, and its line into FOLDER/crates.txt, where it isn't there yet. What is there of such a crate is replaced; nothing
else is touched. rt takes no links, so the crates have to be copies.
"""
import shutil
import sys
from pathlib import Path

TOP = Path(__file__).resolve().parent.parent
PARTS = ("src", "specs", "proofs", "README.md")


def rows():
    """The lines of crates.txt by name."""
    found = {}
    for line in (TOP / "crates.txt").read_text().splitlines():
        name, colon, uses = line.partition("#")[0].partition(":")
        if colon:
            found[name.split()[0]] = (line, uses.split())
    return found


def with_lower(names, all):
    """These crates and those below them, lowest first."""
    wanted = []

    def want(name):
        for lower in all[name][1]:
            if lower in all:
                want(lower)
        if name not in wanted:
            wanted.append(name)

    for name in names:
        want(name)
    return wanted


def take(name, folder):
    to = folder / "crates" / name
    to.mkdir(parents=True, exist_ok=True)
    for part in PARTS:
        one, other = TOP / "crates" / name / part, to / part
        if one.is_dir():
            shutil.rmtree(other, ignore_errors=True)
            shutil.copytree(one, other)
        elif one.is_file():
            shutil.copy2(one, other)


def main():
    all = rows()
    names = sys.argv[2:]
    if not names or any(name not in all for name in names):
        print(__doc__.strip(), file=sys.stderr)
        print("\nThe crates: " + " ".join(all), file=sys.stderr)
        return 2
    folder = Path(sys.argv[1])
    listed = folder / "crates.txt"
    has = listed.read_text().splitlines() if listed.is_file() else []
    for name in with_lower(names, all):
        take(name, folder)
        line = all[name][0]
        at = next((place for place, old in enumerate(has) if old.partition(":")[0].split()[:1] == [name]), None)
        if at is None:
            has.append(line)
        else:
            has[at] = line
        print(f"took {name}")
    listed.write_text("".join(line + "\n" for line in has))
    return 0


if __name__ == "__main__":
    sys.exit(main())
