#!/usr/bin/env python3
"""Times the way from a clone to the first report where nothing is kept.

    bench/first_build.py [--one-by-one]

By ./qtc, or with --one-by-one by `rt run`, which proves one crate after the other. rt keeps proofs for all checkouts of a machine in
a folder beside the kit. Here it stands behind an empty one, in a mount namespace that ends with this, so that nothing which other
checkouts have is taken or lost; this wants root. It prints the seconds, those of all processors together, and the report.
"""
import os
import resource
import shutil
import subprocess
import sys
import tempfile
import time
from pathlib import Path

TOP = Path(__file__).resolve().parent.parent
JOB = "examples/first/lines.job"


def main():
    words = sys.argv[1:]
    if words[:1] != ["--inside"]:
        # Mounts end with the namespace.
        os.execvp("unshare", ["unshare", "-m", sys.executable, __file__, "--inside", *words])
    kept = Path(shutil.which("rt")).resolve().parent.parent.parent / "rattle-kept"
    with tempfile.TemporaryDirectory(prefix="qtc-first-") as room:
        (Path(room) / "kept").mkdir()
        kept.mkdir(exist_ok=True)
        subprocess.run(["mount", "--bind", f"{room}/kept", kept], check=True)
        os.environ["XDG_CACHE_HOME"] = f"{room}/cache"
        begin = time.monotonic()
        subprocess.run(["git", "clone", "-q", TOP, f"{room}/clone"], check=True)
        if "--one-by-one" in words:
            subprocess.run(["rt", "run"], cwd=f"{room}/clone/crates/qtc_cli", stdin=subprocess.DEVNULL, stderr=subprocess.DEVNULL)
            program = "crates/qtc_cli/out/qtc_cli"
        else:
            program = "./qtc"
        ran = subprocess.run([program, "run", JOB], cwd=f"{room}/clone", stdin=subprocess.DEVNULL)
        took = time.monotonic() - begin
        used = resource.getrusage(resource.RUSAGE_CHILDREN)
        print(f"{took:.0f} s, {used.ru_utime + used.ru_stime:.0f} s of processors, status {ran.returncode}")
    return ran.returncode


if __name__ == "__main__":
    sys.exit(main())
