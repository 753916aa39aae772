#!/usr/bin/env python3
"""Says which lines and files are longer than a reader should meet, and ends with 1 where there are any.

    tools/lines.py

No line of a .rt file is over 120 characters, no line of a definition (specs/) over 140, no line of a comment in either over
126, and no file of code, definitions, proofs, tests, tools or pages over 600 lines. Imports don't count, nor do lines with a
text in them, since a text can't be broken. LONGER names what is longer today.
"""
import re
import sys
from pathlib import Path

TOP = Path(__file__).resolve().parent.parent
CODE, DEFINITION, COMMENT, FILE = 120, 140, 126, 600
KINDS = (".rt", ".antt", ".py", ".sh", ".md", ".c", ".cpp", ".rs")
IMPORT = re.compile(r"\s*(ghost |pub |open )*(use|import)\b")

# Files that have longer lines, and how many. None is added.
LONGER = {
    "crates/qtc_job_file/specs/Canonical.antt": 1,
    "crates/qtc_tests/src/claim/called.rt": 1,
    "crates/qtc_job/specs/Codes.antt": 1,
    "crates/qtc_job/specs/Literals.antt": 1,
    "crates/qtc_job/specs/Readers.antt": 3,
    "crates/qtc_outside/src/file_texts.rt": 1,
    "crates/qtc_outside/src/loading.rt": 1,
    "crates/qtc_outside/src/mem_texts.rt": 1,
    "crates/qtc_outside/src/std_sink.rt": 1,
    "crates/qtc_outside/src/sure_sink.rt": 1,
    "crates/qtc_outside/src/sure_texts.rt": 1,
    "crates/qtc_pool/src/becoming.rt": 1,
    "crates/qtc_shared/src/locked_core.rt": 1,
    "crates/qtc_store/specs/Adds.antt": 1,
    "crates/qtc_store/specs/Batches.antt": 1,
    "crates/qtc_store/specs/Stored.antt": 1,
    "crates/qtc_store/specs/Visible.antt": 1,
}


def lines_of(path):
    return path.read_text(encoding="utf-8").splitlines()


def is_long(line, most):
    if line.lstrip().startswith(("//", "--")):
        return len(line) > COMMENT
    return len(line) > most and not IMPORT.match(line) and '"' not in line


def long_lines():
    """What is wrong with the lines of code and definitions."""
    faults = []
    for pattern, most in [("crates/*/src/**/*.rt", CODE), ("crates/*/specs/**/*.antt", DEFINITION)]:
        for path in sorted(TOP.glob(pattern)):
            name = str(path.relative_to(TOP))
            found = [number for number, line in enumerate(lines_of(path), 1) if is_long(line, most)]
            if len(found) > LONGER.get(name, 0):
                faults += [f"{name}:{number}: too long" for number in found]
    return faults


def long_files():
    faults = []
    for top in ("crates", "docs", "tools", "bench"):
        for path in sorted((TOP / top).glob("**/*")):
            if path.suffix in KINDS and "out" not in path.parts and "target" not in path.parts:
                count = len(lines_of(path))
                if count > FILE:
                    faults.append(f"{path.relative_to(TOP)}: {count} lines, and not at most {FILE}")
    return faults


def main():
    faults = long_lines() + long_files()
    for fault in faults:
        print(f"lines: {fault}")
    if not faults:
        print("lines: none is too long, but those that tools/lines.py lists")
    return 1 if faults else 0


if __name__ == "__main__":
    sys.exit(main())
