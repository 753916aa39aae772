#!/usr/bin/env python3
"""Compares the pages with the files and the program that they speak of, and ends with 1 where one differs.

    tools/pages.py              files, parts of files, and the words of the job language
    tools/pages.py --run        these, and the commands of the pages, with what they print

Above a fenced block of a page stands what it is, as a comment:

    <!-- file: PATH -->         the block is the whole file
    <!-- part: PATH -->         the lines of the block stand in the file, one after the other, at any indent; PATH may have *,
                                so that a test may move to another crate
    <!-- run -->                lines that begin with "$ " are commands, and each is followed by what it prints on both streams

The commands of a page are run by one shell in a folder of its own, which has ./qtc, and copies of examples/, docs/ and tools/.
QTC names another program in the place of ./qtc.

The calls, clauses and tests that docs/QT.md and docs/USING.md name stand in the crates.

The words of the language are those of the tables of docs/JOB_FILES.md. Each stands in the manual and in the grammars of the two
editors, and the statuses and limits of that page stand in the manual.
"""
import os
import re
import shutil
import subprocess
import sys
import tempfile
from pathlib import Path

TOP = Path(__file__).resolve().parent.parent
PROGRAM = os.environ.get("QTC", str(TOP / "qtc"))
PAGES = ["README.md", "docs/TUTORIAL.md", "docs/QT.md", "docs/USING.md", "docs/JOB_FILES.md", "crates/qtc_tasks/README.md"]
EDITORS = ["tools/editors/vim/syntax/qtcjob.vim", "tools/editors/qtcjob.tmLanguage.json"]
BLOCK = re.compile(r"^<!-- (file|part|run)(?:: (\S+))? -->\n+```[^\n]*\n(.*?)^```$", re.M | re.S)
END = "\x1e\n"


def blocks_of(page):
    path = TOP / page
    return BLOCK.findall(path.read_text(encoding="utf-8")) if path.is_file() else []


def bare(text):
    return [line.strip() for line in text.splitlines()]


def stands_in(part, whole):
    part, whole = bare(part), bare(whole)
    return any(whole[at : at + len(part)] == part for at in range(len(whole)))


def compare_files(page):
    for kind, name, block in blocks_of(page):
        if kind == "run":
            continue
        texts = [path.read_text(encoding="utf-8") for path in TOP.glob(name) if "out" not in path.parts]
        if kind == "file" and texts != [block]:
            yield f"{page}: a block isn't the file {name}"
        elif kind == "part" and not any(stands_in(block, text) for text in texts):
            yield f"{page}: a block stands in no {name}: {block.splitlines()[0]}"


def commands_of(block):
    """Each command of a block, with what it prints."""
    found = []
    for line in block.splitlines():
        if line.startswith("$ "):
            found.append((line[2:], []))
        elif found:
            found[-1][1].append(line)
    return [(command, "".join(line + "\n" for line in lines)) for command, lines in found]


def folder_for(where):
    """A folder in which a page's commands run, so that nothing of theirs is left in the repository."""
    where = Path(where)
    for name in ("examples", "docs", "tools"):
        shutil.copytree(TOP / name, where / name)
    (where / "qtc").write_text(f'#!/bin/sh\nexec "{PROGRAM}" "$@"\n')
    (where / "qtc").chmod(0o755)
    return where


def run_page(page):
    commands = [pair for kind, _, block in blocks_of(page) if kind == "run" for pair in commands_of(block)]
    if not commands:
        return
    script = "".join(f"{command}\n_s=$?; printf '\\036\\n'; (exit $_s)\n" for command, _ in commands)
    with tempfile.TemporaryDirectory() as where:
        (Path(where) / "script").write_text(script)
        both = {"stdout": subprocess.PIPE, "stderr": subprocess.STDOUT, "stdin": subprocess.DEVNULL}
        ran = subprocess.run(["sh", "script"], cwd=folder_for(where), env=dict(os.environ, QTC=PROGRAM), **both)
    got = ran.stdout.decode(errors="replace").split(END)
    for place, (command, want) in enumerate(commands):
        found = got[place] if place < len(got) else ""
        if found != want:
            yield f"{page}: `{command}` prints\n{found}and not\n{want}"


def compare_names(page):
    """Calls, clauses and tests that a page names, in backticks, stand in the crates, but where it says that they don't yet."""
    files = [path for path in (TOP / "crates").glob("*/*/**/*") if path.suffix in (".rt", ".antt") and "out" not in path.parts]
    known = set(re.findall(r"\w+", " ".join(path.read_text(encoding="utf-8") for path in files)))
    known |= {path.name for path in (TOP / "crates").iterdir()}
    text = re.sub(r"^```.*?^```$", "", (TOP / page).read_text(encoding="utf-8"), flags=re.M | re.S)
    for part in re.split(r"\n(?=\n|\|)", text):
        for name in re.findall(r"`([a-z]+(?:_[a-z]+)+)(?:\([^`]*\))?`", part):
            if name not in known and "not yet" not in part.lower():
                yield f"{page}: {name} stands in no crate"


def words_of_language():
    """The words that the tables of docs/JOB_FILES.md have in the first place of a line and in the second."""
    text = (TOP / "docs/JOB_FILES.md").read_text(encoding="utf-8")
    words = set()
    for row in re.findall(r"^\| (`[^|]*`) \|", text, re.M):
        for form in re.findall("`([^`]+)`", row):
            words |= {word for word in form.split()[:3] if re.fullmatch("[a-z-]+", word)}
    return words


def compare_words():
    words = words_of_language()
    for name in ["docs/qtc.1", *EDITORS]:
        text = (TOP / name).read_text(encoding="utf-8")
        for word in sorted(words):
            if not re.search(rf"(?<![a-z-]){word}(?![a-z-])", text):
                yield f"{name}: the word {word} of docs/JOB_FILES.md isn't there"
    table = (TOP / "docs/JOB_FILES.md").read_text(encoding="utf-8")
    manual = (TOP / "docs/qtc.1").read_text(encoding="utf-8").replace("\\", "")
    for status, line in re.findall(r"^\| (\d) \| (?:none|`([^`]+)`) \|", table, re.M):
        if not re.search(rf"^\.It {status}$", manual, re.M) or line not in manual:
            yield f"docs/qtc.1: status {status} isn't there with its line"
    told = next(line for line in table.splitlines() if "`qtc: too large`" in line)
    for limit in re.findall(r"\d[\d,]+\d", told):
        if limit not in manual:
            yield f"docs/qtc.1: the limit {limit} isn't there"


def main():
    if sys.argv[1:] not in ([], ["--run"]):
        print(__doc__.strip(), file=sys.stderr)
        return 2
    faults = [*compare_words(), *compare_names("docs/QT.md"), *compare_names("docs/USING.md")]
    for page in PAGES:
        faults += compare_files(page)
        if sys.argv[1:]:
            faults += run_page(page)
    for fault in faults:
        print(f"pages: {fault}")
    if not faults:
        print("pages: blocks, words and limits are those of the files" + (", and commands print what is shown" if sys.argv[1:] else ""))
    return 1 if faults else 0


if __name__ == "__main__":
    sys.exit(main())
