#!/usr/bin/env python3
"""Times `qtc run` over the lines of a text beside plain loops, in one run.

The text has N pseudo-random numbers, one a line: x begins at 1 and becomes
(1103515245 * x + 12345) mod 2147483648 before each line.

    bench/lines.py [N ..]     N is 100000, 1000000 and 4000000 where none is given

Each row has the seconds of the best of five runs (wall clock, from start to end of the process) and the
peak of the process's resident memory. The loops read the lines of the same text into a list and write them:
as they are, or the SHA-256 digest of each in hexadecimal. The loop in C needs cc and the headers of OpenSSL,
and is skipped where they are missing.
"""
import os
import shutil
import subprocess
import sys
import tempfile
import time
from pathlib import Path

HERE = Path(__file__).resolve().parent
TOP = HERE.parent
RUNS = 5

SAME = """\
import sys
lines = []
with open(sys.argv[1], "rb") as text:
    for line in text:
        lines.append(line)
out = sys.stdout.buffer
for line in lines:
    out.write(line)
"""

DIGEST = """\
import sys
from hashlib import sha256
lines = []
with open(sys.argv[1], "rb") as text:
    for line in text:
        lines.append(line.rstrip(b"\\n"))
out = sys.stdout
for line in lines:
    out.write(sha256(line).hexdigest())
    out.write("\\n")
"""


def make_text(path, count):
    x = 1
    with open(path, "w") as text:
        for _ in range(count):
            x = (1103515245 * x + 12345) % 2147483648
            text.write(f"{x}\n")


def timed(words, folder, status=0):
    """Seconds and peak kilobytes of one run, which ends with this status."""
    with open(os.devnull, "wb") as out:
        begin = time.perf_counter()
        child = subprocess.Popen(words, stdout=out, cwd=folder)
        _, ended, usage = os.wait4(child.pid, 0)
        seconds = time.perf_counter() - begin
    child.returncode = os.waitstatus_to_exitcode(ended)
    if child.returncode != status:
        sys.exit(f"bench: {words} ended with {child.returncode}")
    return seconds, usage.ru_maxrss


def measure(words, folder, status=0):
    """The fastest of some runs."""
    return min(timed(words, folder, status) for _ in range(RUNS))


def built_c_loop(folder):
    """The digest loop in C, where it can be built."""
    compiler = shutil.which("cc")
    if compiler is None:
        return None
    program = os.path.join(folder, "digest_loop")
    built = subprocess.run(
        [compiler, "-O2", "-o", program, str(HERE / "digest_loop.c"), "-lcrypto"],
        stdout=subprocess.DEVNULL,
        stderr=subprocess.DEVNULL,
    )
    return program if built.returncode == 0 else None


def report(label, row, against, count):
    seconds, peak = row
    ratios = ""
    if against is not None:
        ratios = f"  {seconds / against[0]:6.2f} of its time  {peak / against[1]:6.2f} of its memory"
    print(f"  {label:<24} {seconds:8.3f} s  {peak:9} KB  {peak * 1024 / count:7.1f} bytes a line{ratios}")


def main():
    counts = [int(word) for word in sys.argv[1:]] or [100_000, 1_000_000, 4_000_000]
    subprocess.run([str(TOP / "qtc")], stdout=subprocess.DEVNULL, stderr=subprocess.DEVNULL, cwd=TOP)
    qtc = str(TOP / "crates/qtc_cli/out/qtc_cli")
    with tempfile.TemporaryDirectory() as folder:
        for name, code in [("same.py", SAME), ("digest.py", DIGEST)]:
            Path(folder, name).write_text(code)
        for operation in ["same", "digest"]:
            Path(folder, f"{operation}.job").write_text(f"job a\ninput lines t\nmap {operation}\n")
        c_loop = built_c_loop(folder)
        for count in counts:
            make_text(os.path.join(folder, "t"), count)
            for operation in ["same", "digest"]:
                print(f"{count} lines, map {operation}")
                python = measure([sys.executable, f"{operation}.py", "t"], folder)
                report("loop in Python", python, None, count)
                if operation == "digest" and c_loop is not None:
                    report("loop in C over OpenSSL", measure([c_loop, "t"], folder), python, count)
                report("qtc run", measure([qtc, "run", f"{operation}.job"], folder), python, count)


if __name__ == "__main__":
    main()
