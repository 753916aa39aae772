#!/usr/bin/env python3
"""Times `qtc run` beside the same jobs by rayon, by Qt Concurrent and in C, in one run.

    bench/peers.py [ROUNDS]     5 rounds where no number is given

The programs stand in bench/peers/ and are built anew in a temporary folder, with the system's packages: librust-rayon-dev and
librust-sha2-dev with cargo, qt6-base-dev with g++, libssl-dev with cc. What is missing is skipped with a word. rayon has the
digest in plain Rust, as ours is plain; Qt has its own, and C OpenSSL's, which may use the processor's steps for it.

The jobs are `map digest`, `map length` and `filter contains 77` over the 1,000,000 numbers that bench/lines.py makes, 10.5
bytes a line, at `blocks 1024`; and `map digest` over four texts of 50 lines of 1 MiB, a job each, at `blocks 1`. All rows are
run in turn, by 1, 2 and 4 threads, and every output is compared with ours byte for byte. A row has the median of its seconds,
the median of the rounds' ratios to ours by as many threads, and the greatest peak of memory.
"""
import os
import shutil
import statistics
import subprocess
import sys
import tempfile
import time
from pathlib import Path

from lines import HERE, TOP, make_text

MIB = 1024 * 1024
QTC = str(TOP / "crates/qtc_cli/out/qtc_cli")
DEBIAN = "/usr/share/cargo/registry"
THREADS = [1, 2, 4]
# The job's name, its operation as a job file says it and as the peers do, its blocks and its texts.
JOBS = [
    ("map digest", "map digest", "digest", 1024, ["numbers"]),
    ("map length", "map length", "length", 1024, ["numbers"]),
    ("filter contains 77", "filter contains 77", "contains", 1024, ["numbers"]),
    ("map digest, 4 texts of 50 MiB", "map digest", "digest", 1, ["a", "b", "c", "d"]),
]


def make_texts(folder):
    make_text(os.path.join(folder, "numbers"), 1_000_000)
    for number, name in enumerate("abcd"):
        with open(os.path.join(folder, name), "wb") as text:
            for at in range(50):
                text.write(bytes([48 + at + number]) * MIB + b"\n")


def build(words, **how):
    """Whether a compiler is there and built what it was told."""
    if shutil.which(words[0]) is None:
        return f"{words[0]} is missing"
    ran = subprocess.run(words, stdout=subprocess.PIPE, stderr=subprocess.STDOUT, text=True, **how)
    return None if ran.returncode == 0 else (ran.stdout.strip().splitlines() or ["it doesn't build"])[-1]


def build_rayon(folder):
    if not os.path.isdir(DEBIAN):
        return None, f"{DEBIAN} is missing"
    shutil.copytree(HERE / "peers/rayon", Path(folder, "rayon"))
    config = Path(folder, "rayon/.cargo/config.toml")
    config.parent.mkdir()
    source = '[source.crates-io]\nreplace-with = "debian"\n[source.debian]\ndirectory = "%s"\n'
    config.write_text(source % DEBIAN)
    fault = build(["cargo", "build", "--release", "--offline", "--quiet"], cwd=Path(folder, "rayon"))
    return str(Path(folder, "rayon/target/release/peer")), fault


def build_qt(folder):
    if shutil.which("pkg-config") is None:
        return None, "pkg-config is missing"
    flags = subprocess.run(["pkg-config", "--cflags", "--libs", "Qt6Concurrent"], capture_output=True, text=True)
    if flags.returncode:
        return None, "Qt6Concurrent is missing"
    program = os.path.join(folder, "qt")
    return program, build(["g++", "-O2", "-fPIC", "-std=c++17", "-o", program, str(HERE / "peers/qt.cpp"), *flags.stdout.split()])


def build_c(folder):
    program = os.path.join(folder, "threads")
    return program, build(["cc", "-O2", "-o", program, str(HERE / "peers/threads.c"), "-lcrypto", "-lpthread"])


PEERS = {"rayon": build_rayon, "Qt Concurrent": build_qt, "C": build_c}


def built_peers(folder):
    found = {}
    for name, make in PEERS.items():
        program, fault = make(folder)
        if fault:
            print(f"  {name} is skipped: {fault}")
        else:
            found[name] = program
    return found


def timed(words, folder, out):
    """Seconds and peak kilobytes of one run, whose output goes to a file."""
    with open(os.path.join(folder, out), "wb") as to:
        begin = time.perf_counter()
        child = subprocess.Popen(words, stdout=to, cwd=folder)
        _, ended, usage = os.wait4(child.pid, 0)
        seconds = time.perf_counter() - begin
    child.returncode = os.waitstatus_to_exitcode(ended)
    if child.returncode != 0:
        sys.exit(f"bench: {words} ended with {child.returncode}")
    return seconds, usage.ru_maxrss


def same(folder, one, other):
    return subprocess.run(["cmp", "-s", one, other], cwd=folder).returncode == 0


def rows_of(job, programs, folder):
    """The words of each run of a job, by program and threads."""
    name, line, operation, block, texts = job
    file = f"{JOBS.index(job)}.job"
    Path(folder, file).write_text("".join(f"job {chr(97 + at)}\ninput lines {text}\n{line}\nblocks {block}\n" for at, text in enumerate(texts)))
    for threads in THREADS:
        yield ("qtc run", threads), [QTC, "run", "--workers", str(threads), file]
        for peer, program in programs.items():
            yield (peer, threads), [program, operation, str(block), str(threads), *texts]


def run_job(job, programs, folder, rounds):
    rows = dict(rows_of(job, programs, folder))
    took = {row: [] for row in rows}
    timed(rows["qtc run", 1], folder, "ours")
    for _ in range(rounds):
        for row, words in rows.items():
            took[row].append(timed(words, folder, "got"))
            if not same(folder, "ours", "got"):
                sys.exit(f"bench: {job[0]}: what {row[0]} writes by {row[1]} threads differs from ours")
    for (program, threads), runs in took.items():
        ours = took["qtc run", threads]
        seconds = statistics.median(it for it, _ in runs)
        ratio = statistics.median(it / of for (it, _), (of, _) in zip(runs, ours))
        peak = max(it for _, it in runs)
        print(f"| {job[0]} | {program} | {threads} | {seconds:.3f} | {ratio:.2f} | {peak:,} |", flush=True)


def main():
    rounds = int(sys.argv[1]) if len(sys.argv) > 1 else 5
    subprocess.run([str(TOP / "qtc")], stdout=subprocess.DEVNULL, stderr=subprocess.DEVNULL, cwd=TOP)
    with tempfile.TemporaryDirectory() as folder:
        make_texts(folder)
        programs = built_peers(folder)
        print("| Job | Program | Threads | Seconds | Of ours | KB |\n|---|---|---|---|---|---|")
        for job in JOBS:
            run_job(job, programs, folder, rounds)


if __name__ == "__main__":
    main()
