#!/usr/bin/env python3
"""Reads how much processor time a program takes in which a thread, or 32 workers of a pool, wait for one second.

    bench/waits.py [WHAT ..]     all waits where none is named: lock, bell, resume, pause, finish, result, pool

Each row has how long the thread waited, as `qtc_bench wait WHAT` prints it, and the processor time of that whole process,
the least and the greatest of five runs: its start, its end and its other thread included. Build the program first, by
`rt run` in crates/qtc_bench.
"""
import os
import subprocess
import sys

from lines import RUNS, TOP

BENCH = str(TOP / "crates/qtc_bench/out/qtc_bench")
WAITS = ["lock", "bell", "resume", "pause", "finish", "result", "pool"]


def wait_once(what):
    """What the program printed, and the milliseconds of processor time that it took."""
    child = subprocess.Popen([BENCH, "wait", what], stdout=subprocess.PIPE, text=True)
    told = child.stdout.read()
    _, ended, usage = os.wait4(child.pid, 0)
    child.returncode = os.waitstatus_to_exitcode(ended)
    if child.returncode != 0:
        sys.exit(f"bench: wait {what} ended with {child.returncode}")
    return told.strip(), (usage.ru_utime + usage.ru_stime) * 1000


def main():
    for what in sys.argv[1:] or WAITS:
        runs = [wait_once(what) for _ in range(RUNS)]
        times = sorted(millis for _, millis in runs)
        print(f"  {runs[0][0]}, {times[0]:.1f} to {times[-1]:.1f} ms of processor time")


if __name__ == "__main__":
    main()
