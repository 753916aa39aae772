#!/usr/bin/env python3
"""Times `qtc run` beside another build of the program, in one run.

    bench/beside.py PROGRAM [N ..]     N is 1000000 and 4000000 where none is given

PROGRAM is the other build. Each row is a map of the lines that bench/lines.py makes, with the blocks that it names: the
best of five runs of each program in turn, the time as a multiple of the other's, and the peaks of memory with what one
has more a line. The job of no items has an empty text.
"""
import os
import sys
import tempfile
from pathlib import Path

from lines import TOP, make_text, measure

QTC = str(TOP / "crates/qtc_cli/out/qtc_cli")
ROWS = [("same", "16"), ("same", "1024"), ("digest", "16"), ("digest", "1024")]


def job(operation, blocks):
    return f"job a\ninput lines t\nmap {operation}\nblocks {blocks}\n"


def compare(label, other, folder, count):
    words = ["run", "j"]
    theirs = measure([other, *words], folder)
    ours = measure([QTC, *words], folder)
    more = (ours[1] - theirs[1]) * 1024 / max(count, 1)
    print(
        f"  {label:<34} {theirs[0]:7.3f} s {ours[0]:7.3f} s {ours[0] / theirs[0]:6.2f} times"
        f"  {theirs[1]:8} KB {ours[1]:8} KB {more:7.1f} bytes a line more"
    )
    return ours[0]


def main():
    other = os.path.abspath(sys.argv[1])
    counts = [int(word) for word in sys.argv[2:]] or [1_000_000, 4_000_000]
    with tempfile.TemporaryDirectory() as folder:
        Path(folder, "t").write_text("")
        Path(folder, "j").write_text(job("same", "16"))
        compare("no lines, map same", other, folder, 0)
        for count in counts:
            make_text(os.path.join(folder, "t"), count)
            for operation, blocks in ROWS:
                Path(folder, "j").write_text(job(operation, blocks))
                compare(f"{count} lines, map {operation}, blocks {blocks}", other, folder, count)


if __name__ == "__main__":
    main()
