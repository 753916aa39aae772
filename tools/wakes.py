#!/usr/bin/env python3
"""Looks at every order of the steps of a few threads for one in which somebody sleeps for good.

    tools/wakes.py                          tries the four machines below as they are, then each wrong body
    tools/wakes.py --wrong put|bell|pool    tells one wrong body's order of steps

What no contract says of sleeping is said here as machines of three or four threads: the lock (`take` and `put` of
crates/qtc_lock/src/lock.rt, with sleepers.rt), the bell (bell.rt), a shared future (`enter`, `wait_until` and `wait_result`
of crates/qtc_shared/src/locked_core.rt and waits.rt), and the workers of a pool (guarded.rt, calls.rt, pool.rt, serving.rt of
crates/qtc_pool/src).
A step is one atomic step on a shared word, or a park or a wake, after which a thread goes on by itself to its next one; what
a thread does to an object while it holds the lock is one step. The steps of all threads fall one after the other, in every
order. A park compares and sleeps in one step, and nothing wakes but a wake. From each state that comes up some order of
steps has to lead to the end of all threads. One look stands for the pauses before a sleep.

Without a word of its own it ends with 1 where a machine can get stuck as it is, or where a wrong body isn't found.
"""
import sys
import time
from collections import deque

ONE, ALL = "one", "all"


# The calls, as lists of steps. A line "name:" is a label; `tag` keeps the labels of two uses of a call apart.


def take(tag):
    return [
        ("swap", "found", "word", 1),
        ("if", "found", 0, f"{tag} got"),
        f"{tag} again:",
        ("load", "found", "word"),
        ("unless", "found", 0, f"{tag} sleep"),
        ("swap", "found", "word", 1),
        ("if", "found", 0, f"{tag} got"),
        f"{tag} sleep:",
        ("add", "asleep", 1),
        ("park", "word", 1),
        ("add", "asleep", -1),
        ("goto", f"{tag} again"),
        f"{tag} got:",
    ]


def put(tag, wrong):
    give, ask = ("store", "word", 0), ("load", "any", "asleep")
    return [
        *([ask, give] if wrong == "put" else [give, ask]),
        ("if", "any", 0, f"{tag} put"),
        ("wake", "word", ONE),
        f"{tag} put:",
    ]


def ring(tag):
    return [
        ("add", "rings", 1),
        ("load", "any", "listeners"),
        ("if", "any", 0, f"{tag} rung"),
        ("wake", "rings", ALL),
        f"{tag} rung:",
    ]


def sleep_on_bell(tag, wrong):
    return [
        ("load", "now", "rings"),
        ("unless", "now", "heard", f"{tag} slept"),
        ("add", "listeners", 1),
        *([("load", "heard", "rings")] if wrong == "bell" else []),
        ("park", "rings", "heard"),
        ("add", "listeners", -1),
        f"{tag} slept:",
    ]


# The machines: the words that the threads share, beside COMMON, and the steps of each thread. A "do" is one step in which a
# function may change the words; what it gives goes to a register.


def lock_machine(wrong):
    """Three threads that take the value and put it back, twice each."""
    thread = [step for turn in ("first", "second") for step in take(turn) + put(turn, wrong)]
    return {}, [thread] * 3


def bell_machine(wrong):
    """Two threads that wait for a number to be 1 or 2, and two that raise it and ring."""

    def waiter(least):
        return [
            "again:",
            ("load", "heard", "rings"),
            ("do", "seen", f"look for {least}", lambda memory: memory["number"] >= least),
            ("if", "seen", True, "out"),
            *sleep_on_bell("wait", wrong),
            ("goto", "again"),
            "out:",
        ]

    ringer = [("add", "number", 1), *ring("raised")]
    return {"number": 0}, [waiter(1), waiter(2), ringer, ringer]


FINISHED, SUSPENDED = 1, 2


def future_machine(wrong):
    """A thread that waits for the end, one that waits for a result, one that reports, and one that suspends and finishes."""

    def enter(tag, act):
        """One call on the future: a hold of the lock, in which it changes the core and then stores the flags."""
        return [
            *take(tag),
            ("do", "changed", tag, act),
            ("do", "", "store the flags", lambda memory: memory.update(flags=memory["core"])),
            *put(tag, wrong),
            ("if", "changed", False, f"{tag} bell"),
            ("load", "any", "watchers"),
            ("if", "any", 0, f"{tag} bell"),
            ("wake", "flags", ALL),
            f"{tag} bell:",
            *ring(tag),
        ]

    def report(memory):
        memory["results"] += not memory["core"] & FINISHED
        return False

    def set_flag(flag):
        def act(memory):
            before = memory["core"]
            memory["core"] = before | flag
            return memory["core"] != before

        return act

    wait_finished = [
        "again:",
        ("load", "seen", "flags"),
        ("if", "seen", FINISHED, "out"),
        ("if", "seen", FINISHED | SUSPENDED, "out"),
        ("add", "watchers", 1),
        ("park", "flags", "seen"),
        ("add", "watchers", -1),
        ("goto", "again"),
        "out:",
    ]
    wait_result = [
        "again:",
        ("load", "heard", "rings"),
        *take("look"),
        ("do", "seen", "look for the result", lambda memory: memory["results"] > 0 or memory["core"] & FINISHED > 0),
        *put("look", wrong),
        ("if", "seen", True, "out"),
        *sleep_on_bell("wait", wrong),
        ("goto", "again"),
        "out:",
    ]
    steering = [*enter("suspend", set_flag(SUSPENDED)), *enter("finish", set_flag(FINISHED))]
    memory = {"results": 0, "core": 0, "flags": 0, "watchers": 0}
    return memory, [wait_finished, wait_result, enter("report", report), steering]


def pool_machine(wrong):
    """Three workers of a pool in which one task waits, which starts another."""

    def take_next(memory):
        if memory["waiting"] > 0:
            memory["waiting"] -= 1
            memory["running"] += 1
            return "task"
        return "leave" if memory["running"] == 0 else "sleep"

    def starts_another(memory):
        memory["unborn"] -= 1
        return memory["unborn"] >= 0

    def change(name, amount):
        return lambda memory: memory.update({name: memory[name] + amount})

    count_rings = ("load", "heard", "rings")
    worker = [
        "again:",
        *take("next"),
        ("do", "next", "take the next task", take_next),
        ("unless", "next", "sleep", "something"),
        *([*put("idle", wrong), count_rings] if wrong == "pool" else [count_rings, *put("idle", wrong)]),
        *sleep_on_bell("wait", wrong),
        ("goto", "again"),
        "something:",
        *put("next", wrong),
        ("if", "next", "leave", "out"),
        "task:",
        ("do", "starts", "does it start another", starts_another),
        ("if", "starts", False, "done"),
        *take("start"),
        ("do", "", "queue the other", change("waiting", 1)),
        *put("start", wrong),
        *ring("start"),
        "done:",
        *take("done"),
        ("do", "", "end the task", change("running", -1)),
        *put("done", wrong),
        *ring("done"),
        ("goto", "again"),
        "out:",
    ]
    return {"waiting": 1, "running": 0, "unborn": 1}, [worker] * 3


MACHINES = {"lock": lock_machine, "bell": bell_machine, "future": future_machine, "pool": pool_machine}
# A wrong body: what is wrong, and the machine that has to find it.
WRONG = {
    "put": ("a put that asks for sleepers before it gives the value back", "lock"),
    "bell": ("a bell that parks on the count as it is then", "bell"),
    "pool": ("a worker that counts the rings after it has put the pool back", "pool"),
}
COMMON = {"word": 0, "asleep": 0, "rings": 0, "listeners": 0}
LOCAL = ("if", "unless", "goto")
REGISTERS = ("found", "any", "heard", "now", "seen", "changed", "next", "starts")
AWAKE = ""


class Thread:
    """A list of steps with its labels resolved, and the registers that matter at each."""

    def __init__(self, lines):
        self.steps, self.places = [], {}
        for line in lines:
            if isinstance(line, str):
                self.places[line[:-1]] = len(self.steps)
            else:
                self.steps.append(line)
        self.end = len(self.steps)
        self.live = [()] * (self.end + 1)
        while self.spread():
            pass

    def spread(self):
        """Takes each register that a later step reads into what matters before; says whether that was anything new."""
        grew = False
        for at in reversed(range(self.end)):
            kind, *words = self.steps[at]
            nexts = {"goto": [words[0]], "if": [at + 1, words[-1]], "unless": [at + 1, words[-1]]}.get(kind, [at + 1])
            live = {name for there in nexts for name in self.live[self.places.get(there, there)]}
            if kind in ("load", "swap", "do"):
                live.discard(words[0])
            live |= {word for word in words[kind == "swap" or kind == "load":2] if word in REGISTERS and kind != "do"}
            new = tuple(sorted(live))
            grew |= new != self.live[at]
            self.live[at] = new
        return grew

    def go_on(self, at, own):
        """The place of the next step that others can see."""
        while at < self.end and self.steps[at][0] in LOCAL:
            kind, *words = self.steps[at]
            if kind == "goto" or (own[words[0]] == own.get(words[1], words[1])) == (kind == "if"):
                at = self.places[words[-1]]
            else:
                at += 1
        return at

    def rest_at(self, at, own, word):
        """What a state has of a thread: its place, the registers that matter there, and the word that it sleeps on."""
        at = self.go_on(at, own)
        return at, tuple([own[name] for name in self.live[at]]), word


class Machine:
    """A state is the values of the shared words, and what it has of each thread."""

    def __init__(self, memory, threads):
        self.memory = {**COMMON, **memory}
        self.threads = [Thread(lines) for lines in threads]
        self.alike = all(lines is threads[0] for lines in threads)
        self.first = (tuple(self.memory.values()), tuple(thread.rest_at(0, {}, AWAKE) for thread in self.threads))

    def is_end(self, state):
        return all(rest[0] == thread.end for thread, rest in zip(self.threads, state[1]))

    def after(self, state):
        """Each next state, with the number of the thread that made the step, and the step."""
        words, rests = state
        for number, (at, kept, sleeps_on) in enumerate(rests):
            thread = self.threads[number]
            if sleeps_on == AWAKE and at < thread.end:
                memory, own = dict(zip(self.memory, words)), dict(zip(thread.live[at], kept))
                step = thread.steps[at]
                sleeps_on, choices = made(step, memory, own, rests)
                mine = thread.rest_at(at + 1, own, sleeps_on)
                for woken in choices:
                    new = list(rests)
                    for other in woken:
                        new[other] = (*rests[other][:2], AWAKE)
                    new[number] = mine
                    yield (tuple(memory.values()), tuple(new)), number, step

    def explore(self, by_kind):
        """How many states came up, and the steps to one that leads to no end, if there is one, with that state. By kind,
        threads with the same steps are taken for one another, so that the steps are then of no use."""
        came_from, before, ends, line = {self.first: None}, {}, [], deque([self.first])
        while line:
            state = line.popleft()
            if self.is_end(state):
                ends.append(state)
                continue
            moves = 0
            for new, number, step in self.after(state):
                moves += 1
                if by_kind and self.alike:
                    new = (new[0], tuple(sorted(new[1])))
                before.setdefault(new, []).append(state)
                if new not in came_from:
                    came_from[new] = (state, number, step)
                    line.append(new)
            if not moves:
                return len(came_from), way_to(state, came_from), state
        leads_on, line = set(ends), deque(ends)
        while line:
            for state in before.get(line.popleft(), []):
                if state not in leads_on:
                    leads_on.add(state)
                    line.append(state)
        lost = next((state for state in came_from if state not in leads_on), None)
        return len(came_from), lost and way_to(lost, came_from), lost


def made(step, memory, own, rests):
    """Makes the step; says which word its thread sleeps on then, and which threads it may wake, one list a choice."""
    kind, name, *words = step
    if kind == "load":
        own[name] = memory[words[0]]
    elif kind == "swap":
        own[name], memory[words[0]] = memory[words[0]], words[1]
    elif kind == "store":
        memory[name] = words[0]
    elif kind == "add":
        memory[name] += words[0]
    elif kind == "do":
        own[name] = words[1](memory)
    elif kind == "park":
        return name if memory[name] == own.get(words[0], words[0]) else AWAKE, [()]
    elif kind == "wake":
        asleep = [other for other, rest in enumerate(rests) if rest[2] == name]
        return AWAKE, [[other] for other in asleep] if words[0] == ONE and asleep else [asleep]
    return AWAKE, [()]


def way_to(state, came_from):
    way = []
    while came_from[state]:
        state, number, step = came_from[state]
        way.append((number, step))
    return way[::-1]


def told(step):
    return " ".join(str(word) for word in step if word != "" and not callable(word))


def explore(name, wrong, by_kind=True):
    begin = time.monotonic()
    count, way, lost = Machine(*MACHINES[name](wrong)).explore(by_kind)
    print(f"wakes: {name}: {count:,} states, {time.monotonic() - begin:.1f} s", end="; ")
    if lost is None:
        print("all lead to the end")
        return None
    sleepers = [f"thread {number} on {word}" for number, (_, _, word) in enumerate(lost[1]) if word]
    print(f"after {len(way)} steps there sleeps for good {' and '.join(sleepers)}")
    return way


def main():
    sys.stdout.reconfigure(line_buffering=True)
    words = sys.argv[1:]
    if words[:1] == ["--wrong"] and len(words) == 2 and words[1] in WRONG:
        what, name = WRONG[words[1]]
        print(f"wakes: with {what}:")
        way = explore(name, words[1], by_kind=False)
        for number, step in way or []:
            print(f"  thread {number}: {told(step)}")
        return 0 if way else 1
    if words:
        print(f"wakes: usage: tools/wakes.py [--wrong {'|'.join(WRONG)}]")
        return 2
    faults = [f"{name} gets stuck" for name in MACHINES if explore(name, None)]
    for wrong, (what, name) in WRONG.items():
        print(f"wakes: with {what}:")
        if not explore(name, wrong):
            faults.append(f"{what} isn't found")
    for fault in faults:
        print(f"wakes: {fault}")
    return 1 if faults else 0


if __name__ == "__main__":
    sys.exit(main())
