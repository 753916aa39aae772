#!/usr/bin/env python3
"""Proves and builds the program: first the libraries that it stands on, those side by side that don't stand on one another.

    tools/build.py

./qtc calls it where the program isn't built or is older than its sources. Each library is proved by `rt lib` in a folder of its
own, a copy of its sources and of the libraries below it, since rt lets one command at a time work above a library; what it leaves
goes to the crate's out/. Then `rt run` proves the program over them, links it and runs it without words. rt decides by the sums
of all sources what is proved already, and proves what isn't: so nothing depends on this script but the time.

How many run at once is a matter of processors and of memory (2 GB each); the libraries under the longest chain come first, and
get what processors are over. A build that was broken off goes on where it was. A second one waits for the first.
"""
import contextlib
import fcntl
import hashlib
import os
import re
import shutil
import signal
import subprocess
import sys
import tempfile
import time
from pathlib import Path

TOP = Path(__file__).resolve().parent.parent
PROGRAM = "qtc_cli"
MEMORY_EACH = 2 << 30
PARTS = ("src", "specs", "proofs")


class Crate:
    def __init__(self, name, row, uses):
        self.name, self.row, self.uses = name, row, uses
        self.folder = TOP / "crates" / name
        self.below, self.sum, self.chain = [], "", 0

    def files(self):
        return sorted(path for part in PARTS for path in self.folder.glob(f"{part}/**/*") if path.is_file())

    def is_proved(self):
        """Whether an earlier build, or rt by itself, left the library of these sources."""
        made = self.folder / "out/rlib"
        with contextlib.suppress(OSError):
            since = (made / f"{self.name}.rlib").stat().st_mtime
            return (made / self.sum).is_file() or all(path.stat().st_mtime < since for path in self.files())
        return False


def read_crates():
    """The program and the crates that it stands on, lowest first."""
    crates = {}
    for line in (TOP / "crates.txt").read_text().splitlines():
        name, _, uses = line.partition("#")[0].strip().partition(":")
        if name:
            crates[name.split()[0]] = Crate(name.split()[0], line, uses.split())
    for crate in crates.values():
        crate.uses = [crates[name] for name in crate.uses if name in crates]
    order = []

    def place(crate):
        for lower in crate.uses:
            place(lower)
        if crate not in order:
            order.append(crate)
            crate.below = [it for it in order if it is not crate and any(it is u or it in u.below for u in crate.uses)]

    place(crates[PROGRAM])
    kit = subprocess.run(["rt", "version"], capture_output=True).stdout
    for crate in order:
        sum = hashlib.sha256(kit + crate.row.encode())
        for path in crate.files():
            sum.update(str(path.relative_to(crate.folder)).encode() + b"\0" + path.read_bytes() + b"\0")
        for lower in crate.uses:
            sum.update(lower.sum.encode())
        crate.sum = sum.hexdigest()
    # The length of the longest chain that begins with a crate, in lines.
    for crate in reversed(order):
        above = [it.chain for it in order if crate in it.uses]
        crate.chain = sum_of_lines(crate) + max(above, default=0)
    return order


def proved_of(crates):
    """Those whose library stands, over libraries that stand; the crates come lowest first."""
    done = set()
    for crate in crates:
        if all(lower in done for lower in crate.uses) and crate.is_proved():
            done.add(crate)
    return done


def sum_of_lines(crate):
    return sum(path.read_bytes().count(b"\n") for path in crate.files())


def work_folder():
    """Where the copies are proved: beside the repository's own files, as rt reads each folder below its top."""
    name = f"{TOP.name}-{hashlib.sha256(str(TOP).encode()).hexdigest()[:12]}"
    homes = [os.environ.get("XDG_CACHE_HOME"), os.environ.get("HOME") and os.environ["HOME"] + "/.cache", tempfile.gettempdir()]
    for home in filter(None, homes):
        folder = Path(home) / "qtc-build" / name
        with contextlib.suppress(OSError):
            folder.mkdir(parents=True, exist_ok=True)
            if os.access(folder, os.W_OK):
                return folder
    sys.exit("qtc: no folder to build in can be made")


def copy_tree(one, other):
    """Copies what rt left; what it replaces and never changes by links where these can be made, as rt itself does."""

    def copy(path, to):
        if path.endswith(".oantt") or "/out/rlib/" in path:
            with contextlib.suppress(OSError):
                return os.link(path, to)
        return shutil.copy2(path, to)

    shutil.rmtree(other, ignore_errors=True)
    shutil.copytree(one, other, copy_function=copy)


@contextlib.contextmanager
def locked(path):
    held = os.open(path, os.O_RDONLY)
    try:
        with contextlib.suppress(OSError):
            fcntl.flock(held, fcntl.LOCK_EX)
        yield
    finally:
        os.close(held)


class Proof:
    """One library at work in a folder of its own."""

    def __init__(self, crate, jobs, room):
        self.crate, self.jobs, self.begin, self.sum = crate, jobs, time.monotonic(), crate.sum
        self.room = room / crate.name
        self.room.mkdir(exist_ok=True)
        rows = [it.row for it in [*crate.below, crate]]
        (self.room / "crates.txt").write_text("\n".join(rows) + "\n")
        for it in [*crate.below, crate]:
            to = self.room / "crates" / it.name
            for part in PARTS:
                shutil.rmtree(to / part, ignore_errors=True)
                if (it.folder / part).is_dir():
                    shutil.copytree(it.folder / part, to / part)
            kept = "incremental" if it is crate else "rlib"
            if (it.folder / "out" / kept).is_dir() and not (it is crate and (to / "out" / kept).is_dir()):
                copy_tree(it.folder / "out" / kept, to / "out" / kept)
        self.log = open(self.room / "log", "w+b")
        words = ["rt", "lib", "--jobs", str(jobs)]
        how = {"stdin": subprocess.DEVNULL, "stdout": self.log, "stderr": subprocess.STDOUT, "start_new_session": True}
        self.child = subprocess.Popen(words, cwd=self.room / "crates" / crate.name, **how)

    def stop(self):
        with contextlib.suppress(ProcessLookupError):
            os.killpg(self.child.pid, signal.SIGTERM)
        self.child.wait()

    def said(self):
        self.log.seek(0)
        return self.log.read().decode(errors="replace")

    def keep(self):
        """Hands what was proved to the repository."""
        made, to = self.room / "crates" / self.crate.name / "out", self.crate.folder / "out"
        with locked(self.crate.folder):
            to.mkdir(exist_ok=True)
            for part in ("incremental", "rlib"):
                if (made / part).is_dir():
                    copy_tree(made / part, to / part)
            (to / "rlib" / self.sum).write_text("")
        self.log.close()
        shutil.rmtree(self.room, ignore_errors=True)


class Screen:
    """What is told: one line that changes on a terminal, else a line for each crate that is done."""

    def __init__(self, crates, done):
        self.count, self.done, self.begin = len(crates), done, time.monotonic()
        self.is_terminal, self.shown = sys.stderr.isatty(), ""

    def clock(self):
        seconds = int(time.monotonic() - self.begin)
        return f"{seconds // 60}:{seconds % 60:02}"

    def show(self, names):
        if self.is_terminal:
            width = shutil.get_terminal_size().columns - 1
            line = f"qtc: {self.done} of {self.count} crates proved, {self.clock()}, at work: {', '.join(names)}"
            sys.stderr.write("\r\x1b[K" + line[:width])
            sys.stderr.flush()

    def tell(self, what):
        if self.is_terminal:
            sys.stderr.write("\r\x1b[K")
        print(f"qtc: {what}", file=sys.stderr, flush=True)

    def proved(self, name, seconds):
        self.done += 1
        if not self.is_terminal:
            self.tell(f"proved {name} in {seconds:.0f} s, {self.done} of {self.count} crates, {self.clock()}")


def room_for():
    """How many jobs may run at once."""
    processors = len(os.sched_getaffinity(0))
    with contextlib.suppress(OSError, TypeError):
        free = int(re.search(r"MemAvailable:\s+(\d+)", Path("/proc/meminfo").read_text())[1]) << 10
        return max(1, min(processors, free // MEMORY_EACH))
    return processors


def begin_more(waiting, running, done, most, room):
    """Starts the libraries whose turn it is."""
    ready = [it for it in waiting if all(lower in done for lower in it.below)]
    ready.sort(key=lambda it: -it.chain)
    free = most - sum(proof.jobs for proof in running)
    chosen = ready[: max(free, 0)]
    for place, crate in enumerate(chosen):
        jobs = free // len(chosen) + (place < free % len(chosen))
        waiting.remove(crate)
        running.append(Proof(crate, jobs, room))


def prove_libraries(crates, screen, room):
    """Proves the libraries; says which failed, or None."""
    done = proved_of(crates)
    waiting, running = [it for it in crates if it not in done], []
    most = room_for()
    try:
        while waiting or running:
            begin_more(waiting, running, done, most, room)
            for proof in [it for it in running if it.child.poll() is not None]:
                running.remove(proof)
                if proof.child.returncode:
                    screen.tell(f"{proof.crate.name} wasn't proved")
                    sys.stderr.write(proof.said())
                    return proof.crate.name
                proof.keep()
                done.add(proof.crate)
                screen.proved(proof.crate.name, time.monotonic() - proof.begin)
            screen.show([it.crate.name for it in running])
            time.sleep(0.5)
    finally:
        for proof in running:
            proof.stop()
    return None


def prove_program(crate, screen):
    """Proves and links the program over its libraries; says whether that went well."""
    begin = time.monotonic()
    with tempfile.TemporaryFile() as log:
        # rt ends by running the program without words, which tells its usage.
        how = {"stdin": subprocess.DEVNULL, "stdout": log, "stderr": subprocess.STDOUT, "start_new_session": True}
        child = subprocess.Popen(["rt", "run"], cwd=crate.folder, **how)
        try:
            while child.poll() is None:
                screen.show([crate.name])
                time.sleep(0.2)
        finally:
            with contextlib.suppress(ProcessLookupError):
                os.killpg(child.pid, signal.SIGTERM)
        log.seek(0)
        said = log.read().decode(errors="replace")
    if not re.search(r"^qtc: usage:", said, re.M):
        screen.tell(f"{crate.name} wasn't proved")
        sys.stderr.write(said)
        return False
    screen.proved(crate.name, time.monotonic() - begin)
    return True


def main():
    # So that children are stopped when this is told to stop.
    for number in (signal.SIGTERM, signal.SIGHUP, signal.SIGINT):
        signal.signal(number, lambda got, _: sys.exit(128 + got))
    room = work_folder()
    with open(room / "lock", "w") as lock:
        try:
            fcntl.flock(lock, fcntl.LOCK_EX | fcntl.LOCK_NB)
        except BlockingIOError:
            print("qtc: another build is at work; waiting for it", file=sys.stderr, flush=True)
            fcntl.flock(lock, fcntl.LOCK_EX)
        *libraries, program = read_crates()
        done = len(proved_of(libraries))
        screen = Screen([*libraries, program], done)
        screen.tell(f"building; {done} of {screen.count} crates are proved, and each of the others is proved now")
        if prove_libraries(libraries, screen, room) or not prove_program(program, screen):
            return 1
        screen.tell(f"built in {screen.clock()}")
    return 0


if __name__ == "__main__":
    sys.exit(main())
