#!/usr/bin/env python3
"""Tries the wrong bodies that the gate doesn't try, and says at what each is refused.

    tools/edits.py [--write] [NAME ..]

Each file crates/NAME/edits/*.edit changes a line or two of the crate's code, in the form of those in must-fail/. This makes a
copy of the crates, in which these take the place of the gate's, and runs `rt must-fail NAME` there: it begins with what checks
on this machine kept, and still takes minutes a crate. Where no name is given, all crates are tried. With --write their verdicts
stand in docs/EDITS.md; the rows of other crates stay as they were. It ends with 1 where an edit isn't refused, or is bad.
"""
import re
import shutil
import subprocess
import sys
import tempfile
from pathlib import Path

TOP = Path(__file__).resolve().parent.parent
PAGE = TOP / "docs/EDITS.md"
VERDICT = re.compile(r"^(?:rt: )?must-fail (\w+)/(\S+)\.edit: (refused|NOT REFUSED|BAD EDIT|NOT TRIED)(.*)$", re.M)
ROW = re.compile(r"^\| `(\w+)` \| (.*?) \| (.*?) \|$", re.M)

HEAD = """\
# Wrong bodies that are tried by hand

Beside the few edits in `crates/NAME/must-fail/`, which the gate tries, each crate has others in `crates/NAME/edits/`: changes of
its own code that turn the meaning of a public function, named by what is wrong. `tools/edits.py` tries them on a finished crate,
and writes this table with `--write`. An edit is refused at the first place that the checker tells: a clause or a call in `src/`,
or a proof that no longer fits in `proofs/`.

| Crate | Wrong body | Verdict of the last try |
|---|---|---|
"""


def edits_by_crate(names):
    found = {}
    for crate in sorted((TOP / "crates").iterdir()):
        edits = sorted(path.stem for path in crate.glob("edits/*.edit"))
        if edits and (not names or crate.name in names):
            found[crate.name] = edits
    return found


def told_of(kind, rest):
    """The verdict in few words: in which file an edit is refused, and at what goal."""
    if kind != "refused":
        return kind
    if "only because a proof file names" in rest:
        return "refused, but only as a proof file names what it took away"
    if "only by a limit of the prover" in rest:
        return "refused, but only by a limit of the prover"
    place = re.search(r"(?:\./)?((?:src|specs|proofs)/\S+?):\d+:\d+: (?:error|note)?(?:\[[\w-]+\])?:? ?(.*)", rest)
    if not place:
        return "refused"
    # rt cuts long lines off, perhaps within a goal's name.
    goal = re.search(r"\(`([^`]+)(`\)|$)|^`([^`]+)`:", place[2].strip())
    if not goal:
        return f"refused at `{place[1]}`: {place[2].partition(';')[0].strip()}"
    return f"refused at `{place[1]}`: `{goal[1] or goal[3]}{'' if goal[2] or goal[3] else '..'}`"


def tried(names):
    """The verdict of each edit of these crates, by crate and name."""
    found = {}
    with tempfile.TemporaryDirectory(prefix="qtc-edits-") as folder:
        copy = Path(folder)
        shutil.copytree(TOP / "crates", copy / "crates", ignore=shutil.ignore_patterns("out"))
        for name in ("crates.txt", "HANDLES"):
            shutil.copy2(TOP / name, copy / name)
        for name in names:
            crate = copy / "crates" / name
            shutil.rmtree(crate / "must-fail", ignore_errors=True)
            (crate / "edits").rename(crate / "must-fail")
            ran = subprocess.run(["rt", "must-fail", name], cwd=copy, capture_output=True, text=True, errors="replace")
            verdicts = {edit: told_of(kind, rest) for _, edit, kind, rest in VERDICT.findall(ran.stdout + ran.stderr)}
            for edit in names[name]:
                found[name, edit] = verdicts.get(edit, "NOT TRIED")
                print(f"edits: {name}: {edit}: {found[name, edit]}", flush=True)
            if not verdicts:
                print(f"{ran.stdout}{ran.stderr}edits: rt must-fail {name} ended with {ran.returncode}", file=sys.stderr)
    return found


def write(found):
    """Writes the page: a row for each edit that stands, with its last verdict."""
    old = {}
    if PAGE.exists():
        old = {(crate, edit): verdict for crate, edit, verdict in ROW.findall(PAGE.read_text())}
    rows = []
    for crate, edits in edits_by_crate([]).items():
        for edit in edits:
            words = edit.replace("_", " ")
            last = found.get((crate, edit), "NOT TRIED")
            verdict = old.get((crate, words), "not tried yet") if last == "NOT TRIED" else last
            rows.append(f"| `{crate}` | {words} | {verdict.replace('|', chr(0x2223))} |\n")
    PAGE.write_text(HEAD + "".join(rows))


def main():
    names = [word for word in sys.argv[1:] if word != "--write"]
    wanted = edits_by_crate(names)
    for name in names:
        if name not in wanted:
            sys.exit(f"edits: crates/{name} has no edits/")
    found = tried(wanted)
    if "--write" in sys.argv[1:]:
        write(found)
    refused = sum(verdict.startswith("refused") for verdict in found.values())
    others = {kind: list(found.values()).count(kind) for kind in ("NOT REFUSED", "BAD EDIT", "NOT TRIED")}
    print(f"edits: {refused} refused, " + ", ".join(f"{count} {kind}" for kind, count in others.items()))
    return 0 if refused == len(found) else 1


if __name__ == "__main__":
    sys.exit(main())
