#!/usr/bin/env python3
"""Times `qtc run` and `qtc check` over whole job files beside other programs, in one run.

    bench/jobs.py [ROW ..]     all rows where none is named: contains, report, jobs, digests, parse

The text of `contains` and `jobs` has the numbers that bench/lines.py makes. Each figure is the best of five runs, from
the start to the end of the process.

- contains: `filter contains 77` over 1,000,000 lines beside `grep -F -c 77`, both to a pipe.
- report: what forming and writing the report costs a value: `map number` over 1,000,000 lines, less the same over one
  more line that is no number, so that the job fails at its end and has no values to report.
- jobs: 64 jobs over one text of 100,000 lines beside one job, both less the loading, which is the time of a job that
  makes one item of the whole text and gives its length.
- digests: `map digest` over 63 lines of 1 MiB, less a run that gives their lengths, beside `qtc_bench digest`, which
  digests the same number of bytes in memory; it is skipped where that program isn't built.
- parse: `qtc check` of a job file of nearly 1 MiB.
"""
import os
import subprocess
import sys
import tempfile
import time
from pathlib import Path

from lines import RUNS, TOP, make_text, measure

MIB = 1024 * 1024
QTC = str(TOP / "crates/qtc_cli/out/qtc_cli")


def to_a_pipe(words, folder):
    """Seconds of the best of some runs whose output is read through a pipe."""
    best = None
    for _ in range(RUNS):
        begin = time.perf_counter()
        subprocess.run(words, stdout=subprocess.PIPE, cwd=folder, check=True)
        seconds = time.perf_counter() - begin
        best = seconds if best is None else min(best, seconds)
    return best


def show(name, figure):
    print(f"  {name:<40} {figure}")


def contains(folder):
    count = 1_000_000
    make_text(os.path.join(folder, "t"), count)
    Path(folder, "j").write_text("job a\ninput lines t\nfilter contains 77\n")
    ours = to_a_pipe([QTC, "run", "j"], folder)
    grep = to_a_pipe(["grep", "-F", "-c", "77", "t"], folder)
    _, peak = measure([QTC, "run", "j"], folder)
    show("filter contains 77", f"{ours:.3f} s, {peak} KB, {ours / grep:.2f} of grep's {grep:.3f} s")


def report(folder):
    count = 1_000_000
    make_text(os.path.join(folder, "t"), count)
    Path(folder, "bad").write_text(Path(folder, "t").read_text() + "x\n")
    Path(folder, "whole").write_text("job a\ninput lines t\nmap number\n")
    Path(folder, "fails").write_text("job a\ninput lines bad\nmap number\n")
    whole, _ = measure([QTC, "run", "whole"], folder)
    fails, _ = measure([QTC, "run", "fails"], folder, status=1)
    show("the report of 1,000,000 numbers", f"{(whole - fails) * 1e9 / count:.1f} ns a value, of {whole:.3f} s")


def jobs(folder):
    make_text(os.path.join(folder, "t"), 100_000)
    job = "job a{}\ninput lines t\nmap same\n"
    Path(folder, "one").write_text(job.format(0))
    Path(folder, "many").write_text("".join(job.format(number) for number in range(64)))
    Path(folder, "load").write_text(f"job a\ninput pieces {64 * MIB} t\nmap length\n")
    loading, _ = measure([QTC, "run", "load"], folder)
    one, _ = measure([QTC, "run", "one"], folder)
    many, peak = measure([QTC, "run", "many"], folder)
    ratio = (many - loading) / (64 * (one - loading))
    show("64 jobs over one text", f"{many:.3f} s, {peak} KB, {ratio:.2f} of 64 times one job's {one:.4f} s")
    show("the loading alone", f"{loading:.4f} s")


def digests(folder):
    line = b"0123456789abcdef" * (MIB // 16)
    Path(folder, "t").write_bytes((line + b"\n") * 63)
    Path(folder, "digest").write_text("job a\ninput lines t\nmap digest\n")
    Path(folder, "length").write_text("job a\ninput lines t\nmap length\n")
    ours, peak = measure([QTC, "run", "digest"], folder)
    rest, _ = measure([QTC, "run", "length"], folder)
    show("map digest of 63 lines of 1 MiB", f"{ours:.3f} s, {peak} KB")
    show("map length of them", f"{rest:.3f} s")
    alone = TOP / "crates/qtc_bench/out/qtc_bench"
    if alone.exists():
        told = subprocess.run([str(alone), "digest"], stdout=subprocess.PIPE, check=True, text=True)
        print(told.stdout, end="")


def parse(folder):
    def long_job(number):
        names = " ".join(f"folder\\x20{number:02}/text{text:02}" + "n" * 40 for text in range(64))
        literal = "\\x00b\\xffq" * 400
        chain = f"on-failed {literal}\non-canceled {literal}\n"
        return f"job a{number}\ninput files {names}\nfilter not contains {literal}\n{chain}priority -7\n"

    text = ""
    for number in range(64):
        job = long_job(number)
        if len(text) + len(job) > MIB:
            break
        text += job
    comment = "# a comment of the length of a line of a job file, more or less\n"
    for name, text in [("names and literals", text), ("comments", comment * (MIB // len(comment)))]:
        Path(folder, "j").write_text(text)
        seconds, _ = measure([QTC, "check", "j"], folder)
        show(f"check of {len(text)} bytes of {name}", f"{seconds:.3f} s")


ROWS = {"contains": contains, "report": report, "jobs": jobs, "digests": digests, "parse": parse}


def main():
    subprocess.run([str(TOP / "qtc")], stdout=subprocess.DEVNULL, stderr=subprocess.DEVNULL, cwd=TOP)
    for name in sys.argv[1:] or list(ROWS):
        with tempfile.TemporaryDirectory() as folder:
            print(name)
            ROWS[name](folder)


if __name__ == "__main__":
    main()
