#!/usr/bin/env python3
"""Fills the numbers of the tables of crates in docs/PROVED.md, or says which of them are stale.

    tools/counts.py            writes the numbers into the table
    tools/counts.py --check    changes nothing, and ends with 1 where a number is stale

Lines are counted without blank lines and without lines that are comments alone: of code (src/, with its clauses, without
its tests), of definitions (specs/) and of proofs (proofs/, those of tests too). Tests are counted as test functions, edits as
files: those that the gate tries (must-fail/), and those that are tried by hand (edits/). Which crates the table has, in which
order, and its other columns are written by hand.
"""
import re
import sys
from pathlib import Path

TOP = Path(__file__).resolve().parent.parent
PAGE = TOP / "docs/PROVED.md"
BEGIN = "<!-- tools/counts.py fills the numbers of this table -->"
END = "<!-- the end of that table -->"
COLUMNS = 6


def told_lines(lines, comment):
    return sum(1 for line in lines if line.strip() and not line.strip().startswith(comment))


def without_test_modules(lines):
    """The lines without modules of tests that stand in the file of the code; a `mod tests;` stays."""
    kept, within, marked = [], None, False
    for line in lines:
        indent = len(line) - len(line.lstrip())
        if within is not None:
            if indent == within and line.strip() == "}":
                within = None
            continue
        if marked and re.match(r"\s*(pub(\(crate\))? )?mod \w+ \{", line):
            kept.pop()
            within, marked = indent, False
            continue
        marked = line.strip() == "#[cfg(test)]"
        kept.append(line)
    return kept


def read(path):
    return path.read_text(encoding="utf-8").splitlines()


def modules_of_tests(root):
    """The modules that a crate's root declares for its tests alone."""
    lines = [line for name in ("lib.rt", "main.rt") if (root / name).exists() for line in read(root / name)]
    marked = [after for line, after in zip(lines, lines[1:]) if line.strip() == "#[cfg(test)]"]
    return {found[1] for found in (re.match(r"mod (\w+);", line.strip()) for line in marked) if found} | {"tests"}


def is_of_tests(path, root, modules):
    names = path.relative_to(root).with_suffix("").parts
    return names[0] in modules or "tests" in names


def numbers(crate):
    """Lines of code, definitions and proofs; tests; edits in the gate, and beside it."""
    sources = sorted(crate.glob("src/**/*.rt"))
    modules = modules_of_tests(crate / "src")
    code = [path for path in sources if not is_of_tests(path, crate / "src", modules)]
    return [
        sum(told_lines(without_test_modules(read(path)), "//") for path in code),
        sum(told_lines(read(path), "--") for path in crate.glob("specs/**/*.antt")),
        sum(told_lines(read(path), "--") for path in crate.glob("proofs/**/*.antt")),
        sum(line.strip() == "#[test]" for path in sources for line in read(path)),
        len(list(crate.glob("must-fail/*.edit"))),
        len(list(crate.glob("edits/*.edit"))),
    ]


def filled(row, found):
    """The row with its last cells as numbers."""
    cells = row.split("|")[1:-1]
    cells[-COLUMNS:] = [f" {number:,} " for number in found]
    return "|" + "|".join(cells) + "|"


def new_page(page):
    """The page with the right numbers, and what is wrong with it."""
    lines = page.split("\n")
    if BEGIN not in lines or END not in lines:
        return page, [f"no table stands between the lines '{BEGIN}' and '{END}'"]
    crates = {path.name for path in (TOP / "crates").iterdir() if (path / "src").is_dir()}
    faults, sums = [], [0] * COLUMNS
    for place in range(lines.index(BEGIN), lines.index(END)):
        name = re.match(r"\| (?:\[?`(\w+)`|(together) )", lines[place])
        if not name:
            continue
        if name[2]:
            found = sums
        elif name[1] not in crates:
            faults.append(f"{name[1]} is no crate, or stands twice")
            continue
        else:
            crates.remove(name[1])
            found = numbers(TOP / "crates" / name[1])
            sums = [old + new for old, new in zip(sums, found)]
        row = filled(lines[place], found)
        if row != lines[place]:
            told = [cell.strip() for cell in lines[place].split("|")[1:-1][-COLUMNS:]]
            faults.append(f"{name[1] or name[2]}: {' '.join(told)} are told, {' '.join(f'{n:,}' for n in found)} there are")
        lines[place] = row
    faults += [f"{name} has no row" for name in sorted(crates)]
    return "\n".join(lines), faults


def main():
    page = PAGE.read_text(encoding="utf-8")
    new, faults = new_page(page)
    for fault in faults:
        print(f"counts: {fault}")
    if "--check" in sys.argv[1:]:
        print("counts: run tools/counts.py" if faults else "counts: docs/PROVED.md has the numbers of today")
        return 1 if faults else 0
    if new != page:
        PAGE.write_text(new, encoding="utf-8")
        print("counts: wrote docs/PROVED.md")
    return 1 if new_page(new)[1] else 0


if __name__ == "__main__":
    sys.exit(main())
