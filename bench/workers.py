#!/usr/bin/env python3
"""Times `qtc run` with 1 to 32 workers, and beside another build of the program where one is named.

    bench/workers.py [ROUNDS [PROGRAM]]     7 rounds where no number is given

The jobs are maps of the 1,000,000 numbers that bench/lines.py makes, and of 63 lines of 1 MiB. All rows are run in turn,
so many rounds of them. A row has the median of its seconds, the median of the rounds' ratios to one worker of the same
build, and its greatest peak of memory.
"""
import os
import statistics
import subprocess
import sys
import tempfile
from pathlib import Path

from lines import TOP, make_text, timed

MIB = 1024 * 1024
QTC = str(TOP / "crates/qtc_cli/out/qtc_cli")
# A job, its text, operation and blocks, and the numbers of workers.
JOBS = [
    ("digest, blocks 1024", "numbers", "digest", 1024, [1, 2, 4, 32]),
    ("digest, blocks 16", "numbers", "digest", 16, [1, 2, 4]),
    ("same, blocks 1024", "numbers", "same", 1024, [1, 4]),
    ("digest, 63 lines of 1 MiB", "long", "digest", 1, [1, 2, 4]),
]


def main():
    rounds = int(sys.argv[1]) if len(sys.argv) > 1 else 7
    builds = [("", QTC)] + [(", the other build", os.path.abspath(other)) for other in sys.argv[2:3]]
    subprocess.run([str(TOP / "qtc")], stdout=subprocess.DEVNULL, stderr=subprocess.DEVNULL, cwd=TOP)
    with tempfile.TemporaryDirectory() as folder:
        make_text(os.path.join(folder, "numbers"), 1_000_000)
        # In pieces, since a child's peak of memory is at least that of this script.
        with open(os.path.join(folder, "long"), "wb") as text:
            for at in range(63):
                text.write(bytes([32 + at]) * MIB + b"\n")
        for place, (_, text, operation, blocks, _) in enumerate(JOBS):
            job = f"job a\ninput lines {text}\nmap {operation}\nblocks {blocks}\n"
            Path(folder, f"{place}.job").write_text(job)
        rows = [
            (place, count, build)
            for place, (*_, workers) in enumerate(JOBS)
            for count in workers
            for build in builds
        ]
        took = {row: [] for row in rows}
        for _ in range(rounds):
            for place, count, (name, program) in rows:
                words = [program, "run", "--workers", str(count), f"{place}.job"]
                took[place, count, (name, program)].append(timed(words, folder))
    for place, count, build in rows:
        seconds = [it for it, _ in took[place, count, build]]
        one = [it for it, _ in took[place, 1, build]]
        ratio = statistics.median(it / of for it, of in zip(seconds, one))
        peak = max(it for _, it in took[place, count, build])
        label = f"{JOBS[place][0]}, {count} workers{build[0]}"
        print(f"  {label:<58} {statistics.median(seconds):7.3f} s  {ratio:5.2f} of one  {peak:9} KB")


if __name__ == "__main__":
    main()
