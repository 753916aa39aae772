#!/usr/bin/env python3
"""Lets four tasks run while a thread cancels their futures at a random time, far more often than the tests do.

    bench/races.py [ROUNDS]     # 10,000 rounds where no number is given

It copies the crates, adds tests to `src/races.rt` of `qtc_tasks_tests` there, each of a hundred rounds of its own random times (a test
has a limit of time), builds them without their proof (`rt try --test`), and tells how many held, and the seconds of the whole, of which
some twenty are the build's.
"""
import re
import shutil
import subprocess
import sys
import tempfile
import time
from pathlib import Path

from lines import TOP

EACH = 100

TEST = """
#[test]
fn rounds_from_{first}(rt: HostRuntime) -> Result<(), Fail> {{
    assert_eq!(rt; right_from(&rt, rt.alloc(), {first}, {rounds})?, {futures});
    Ok(())
}}
"""


def tests_of(rounds):
    for first in range(0, rounds, EACH):
        count = min(EACH, rounds - first)
        yield TEST.format(first=first, rounds=count, futures=4 * count)


def main():
    rounds = int(sys.argv[1]) if sys.argv[1:] else 10_000
    tests = list(tests_of(rounds))
    with tempfile.TemporaryDirectory(prefix="qtc-races-") as folder:
        copy = Path(folder)
        shutil.copytree(TOP / "crates", copy / "crates", ignore=shutil.ignore_patterns("out"))
        for name in ("crates.txt", "HANDLES"):
            shutil.copy2(TOP / name, copy / name)
        crate = copy / "crates/qtc_tasks_tests"
        with open(crate / "src/races.rt", "a", encoding="utf-8") as source:
            source.writelines(tests)
        begin = time.monotonic()
        ran = subprocess.run(["rt", "try", "--test"], cwd=crate, capture_output=True, text=True, errors="replace")
        seconds = time.monotonic() - begin
    told = ran.stdout + ran.stderr
    held = len(re.findall(r"^test \S*rounds_from_\d+ \.\.\. ok$", told, re.M))
    if held != len(tests):
        print(told)
        sys.exit(f"races: {held} of {len(tests)} tests held")
    print(f"  {rounds} rounds of four tasks and a thread that cancels: each journal is a task journal, {seconds:.1f} s")


if __name__ == "__main__":
    main()
