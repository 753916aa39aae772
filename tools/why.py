#!/usr/bin/env python3
"""Says why a run was refused: which text can't be read, which limit is passed, what is wrong with the job file.

    tools/why.py JOB        (installed: qtc-why JOB)

The program's own lines name no text, as `qtc: read fault` and `qtc: too large`. This looks at the job file and at each text that
it names, and says of each whether it can be read, its bytes and lines, and which limit it or the sum passes. Of a bad job file it
says the line, what the code means, and how it is mended. It ends with the status that a run of the file would be refused with,
or 0. It runs `qtc check` and no job.

What codes mean, the limits, and what isn't run yet are read from docs/JOB_FILES.md, so that nothing is said in two places.
The program is the one that ./qtc built, or the qtc beside this file where it is installed; QTC names another.
"""
import os
import re
import stat
import subprocess
import sys
from pathlib import Path

HERE = Path(__file__).resolve().parent
PAGES = (HERE.parent / "docs/JOB_FILES.md", HERE.parent / "share/doc/qtc/JOB_FILES.md")
PROGRAMS = (HERE / "qtc", HERE.parent / "crates/qtc_cli/out/qtc_cli")
TEXTS = {b"lines": 2, b"files": 2, b"pieces": 3}
READ, REFUSED, TOO_LARGE, NOT_YET = 4, 3, 7, 8


class Page:
    """What docs/JOB_FILES.md says of codes, limits and what later versions run."""

    def __init__(self):
        page = next((path for path in PAGES if path.is_file()), None)
        if page is None:
            sys.exit("why: docs/JOB_FILES.md isn't there")
        text = page.read_text(encoding="utf-8")
        refused = text.partition("\n## When a file is refused\n")[2].partition("\n## ")[0]
        self.codes = {int(row[0]): row[1:] for row in self.rows(refused) if row[0].isdigit()}
        rows = self.rows(text)
        told = next(row for row in rows if row[1:2] == ["`qtc: too large`"])
        limits = [int(number.replace(",", "")) for number in re.findall(r"\d[\d,]*", told[2])]
        self.job_file, self.text, self.texts, self.items, self.item_bytes = limits
        later = [row[0] for row in rows if any("later versions run it" in cell for cell in row[1:])]
        self.later = {tuple(form.split()[: 2 if form.startswith("input ") else 1]) for row in later for form in re.findall("`([^`]+)`", row)}

    @staticmethod
    def rows(text):
        return [[cell.strip() for cell in line.split("|")[1:-1]] for line in text.splitlines() if line.startswith("|")]

    def is_later(self, words):
        """Whether a line is one that isn't run yet."""
        return any(tuple(words[:count]) in self.later for count in (1, 2))


def shown(name):
    """A name or a line as a report writes it."""
    said = b"".join(b"\\x%02x" % byte if byte < 0x20 or byte in (0x7F, 0x5C) else bytes([byte]) for byte in name)
    return said.decode(errors="backslashreplace")


def plain(word):
    return re.sub(rb"\\x([0-9a-fA-F]{2})", lambda found: bytes([int(found[1], 16)]), word)


def number(value, one):
    return f"{value:,} {one}" + ("" if value == 1 else "s")


def loaded(name, most):
    """The text under a name, at most one byte more than there may be; or why there is none."""
    try:
        name.decode()
    except UnicodeDecodeError:
        return None, "its name isn't UTF-8"
    if b"\0" in name:
        return None, "its name has a NUL"
    try:
        if not stat.S_ISREG(os.stat(name).st_mode) and not os.path.isdir(name):
            return None, ""
        with open(name, "rb") as file:
            return file.read(most + 1), ""
    except OSError as fault:
        return None, fault.strerror


def lines_of(text):
    return text.count(b"\n") + (not text.endswith(b"\n") if text else 0)


class Ending:
    """The status of what the program meets first."""

    def __init__(self):
        self.status = 0

    def meet(self, status):
        self.status = self.status or status


def jobs_of(canonical):
    """Of each job its name, and the words of its lines."""
    jobs = []
    for line in canonical.split(b"\n"):
        words = line.split(b" ")
        if words[0] == b"job":
            jobs.append((words[1], []))
        elif jobs and words != [b""]:
            jobs[-1][1].append(words)
    return jobs


def texts_of(words):
    """The names of the texts of an input line."""
    return [plain(word) for word in words[TEXTS[words[1]] :]] if words[1] in TEXTS else []


def say_later(page, jobs, ending):
    for name, lines in jobs:
        for words in lines:
            # The canonical text has an order wherever there is a fold, which is told already.
            if words[0] != b"order" and page.is_later([word.decode(errors="replace") for word in words]):
                print(f"job {shown(name)}: `{shown(b' '.join(words))}` isn't run yet: qtc: not yet (status 8)")
                ending.meet(NOT_YET)


def say_texts(page, names, ending):
    """Says of each text what it is; gives those that could be read."""
    texts, sum, told = {}, 0, False
    for name in names:
        text, fault = loaded(name, page.text)
        if text is None and not fault:
            print(f"{shown(name)}: no plain file (a pipe, a terminal, a device): read once, at the run, and not looked at here")
            continue
        if text is None:
            print(f"{shown(name)}: can't be read: {fault}: qtc: read fault (status 4)")
            ending.meet(READ)
            continue
        if len(text) > page.text:
            size = os.path.getsize(name)
            print(f"{shown(name)}: {size:,} bytes, more than {page.text:,}, the limit of a text: qtc: too large (status 7)")
            ending.meet(TOO_LARGE)
            sum += size
        else:
            print(f"{shown(name)}: can be read; {number(len(text), 'byte')}, {number(lines_of(text), 'line')}")
            texts[name] = text
            sum += len(text)
        if sum > page.texts and not told:
            told = True
            print(f"{shown(name)}: with those before it {sum:,} bytes, more than {page.texts:,}, the limit of all texts: qtc: too large (status 7)")
            ending.meet(TOO_LARGE)
    if len(names) > 1:
        print(f"all texts: {number(sum, 'byte')}")
    return texts


def size_of(words, texts):
    """How many items an input has, and how many bytes they have; None where a text wasn't looked at."""
    named = texts_of(words)
    if words[1] not in TEXTS or any(name not in texts for name in named):
        return None
    held = [texts[name] for name in named]
    if words[1] == b"lines":
        return lines_of(held[0]), len(held[0]) - held[0].count(b"\n")
    if words[1] == b"pieces":
        return -(-len(held[0]) // int(words[2])), len(held[0])
    return len(held), sum(map(len, held))


def say_items(page, jobs, texts, ending):
    items, size, told = 0, 0, False
    for name, lines in jobs:
        for words in lines:
            own = size_of(words, texts) if words[0] == b"input" else None
            if own:
                items, size = items + own[0], size + own[1]
                print(f"job {shown(name)}: {number(own[0], 'item')}, {number(own[1], 'byte')}")
        for sum, limit, what in [(items, page.items, "items"), (size, page.item_bytes, "bytes of items")]:
            if sum > limit and not told:
                told = True
                print(f"job {shown(name)}: with the jobs before it {sum:,} {what}, more than {limit:,}: qtc: too large (status 7)")
                ending.meet(TOO_LARGE)


def say_refusal(page, file, said):
    found = re.search(rb"line (\d+) code (\d+)", said)
    line, code = int(found[1]), int(found[2])
    lines = file.split(b"\n")
    meaning, mending = page.codes[code]
    print(f"line {line}: {shown(lines[line - 1][:200])}")
    print(f"code {code}: {meaning}")
    print(f"mend it so: {mending}")


def program():
    named = os.environ.get("QTC") or next((str(path) for path in PROGRAMS if os.access(path, os.X_OK)), None)
    return named or sys.exit("why: the program isn't built; ./qtc builds it")


def explain(job):
    page, ending = Page(), Ending()
    file, fault = loaded(job, page.job_file)
    if file is None and not fault:
        print(f"{shown(job)}: no plain file, and a job file is looked at twice here: write it to a file")
        return 1
    if file is None:
        print(f"{shown(job)}: the job file can't be read: {fault}: qtc: read fault (status 4)")
        return READ
    if len(file) > page.job_file:
        size = os.path.getsize(job)
        print(f"{shown(job)}: {size:,} bytes, more than {page.job_file:,}, the limit of a job file: qtc: too large (status 7)")
        return TOO_LARGE
    ran = subprocess.run([program(), "check", job], stdin=subprocess.DEVNULL, capture_output=True)
    if ran.returncode == REFUSED:
        say_refusal(page, file, ran.stderr)
        return REFUSED
    if ran.returncode:
        print(f"qtc check ended with {ran.returncode}: {ran.stderr.decode(errors='replace').strip()}")
        return ran.returncode
    jobs = jobs_of(ran.stdout)
    print(f"{shown(job)}: a lawful job file; {number(len(jobs), 'job')}")
    say_later(page, jobs, ending)
    names = dict.fromkeys(name for _, lines in jobs for words in lines if words[0] == b"input" for name in texts_of(words))
    texts = say_texts(page, list(names), ending)
    say_items(page, jobs, texts, ending)
    if not ending.status:
        print("nothing here refuses a run")
    return ending.status


def main():
    if len(sys.argv) != 2 or sys.argv[1] in ("-h", "--help"):
        print(__doc__.strip(), file=sys.stderr)
        return 0 if sys.argv[1:] in (["-h"], ["--help"]) else 2
    sys.stdout.reconfigure(errors="backslashreplace")
    return explain(os.fsencode(sys.argv[1]))


if __name__ == "__main__":
    sys.exit(main())
