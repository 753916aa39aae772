#!/usr/bin/env python3
"""Makes job files at random, and compares what `./qtc check` says of each with what docs/JOB_FILES.md says.

    tools/random_jobs.py [COUNT [SEED]]

At the top of the repository; the gate runs 300 files of one seed. It reads the language anew, from that page alone, and shares
nothing with the program. It prints its seed, and the first file on which the two differ.
"""
import os
import random
import re
import subprocess
import sys
import tempfile

DIGITS = re.compile(rb"[0-9]{1,10}\Z")
NAME = re.compile(rb"[A-Za-z0-9_-]{1,64}\Z")
TEXT = re.compile(rb"(?:\\x[0-9a-fA-F]{2}|[ -\[\]-~\x80-\xff])+\Z")
ITEMS = 8388608
NUMBER, LITERAL, PRIORITY, EARLIER, NEW = range(5)

# A form is a list of places and how many words it may have; the places of a form of many words are its one place.
MAPS = {b"same": [], b"length": [], b"digest": [], b"field": [(NUMBER, 1, 1000)], b"number": []}
TESTS = {b"contains": [(LITERAL,)], b"wildcard": [(LITERAL,)], b"longer": [(NUMBER, 0, 67108864)]}
FOLDS = {b"count": [], b"bytes": [], b"sum": [], b"join": [(LITERAL,)], b"chain": [], b"greatest": [], b"tally": []}
ORDERS = {b"ordered": [], b"unordered": []}
LISTS = {b"first": [(NUMBER, 0, ITEMS)], b"sorted": [], b"concat": []}
INPUTS = {b"lines": [(LITERAL,)], b"files": (64, (LITERAL,)), b"pieces": [(NUMBER, 1, 67108864), (LITERAL,)],
          b"job": [(EARLIER,)], b"all": (64, (EARLIER,)), b"any": (64, (EARLIER,))}
PLAIN = {b"workers": [(NUMBER, 1, 32)], b"job": [(NEW,)], b"blocks": (16, (NUMBER, 1, 65536)),
         b"priority": [(PRIORITY,)], b"cancel-after": [(NUMBER, 1, ITEMS)], b"suspend-after": [(NUMBER, 1, ITEMS)],
         b"watch": [], b"on-failed": [(LITERAL,)], b"on-canceled": [(LITERAL,)]}
CHOICES = {b"input": INPUTS, b"map": MAPS, b"filter": TESTS, b"reduce": FOLDS, b"order": ORDERS, b"then": LISTS}
CHAIN = (b"then", b"on-failed", b"on-canceled")


def cut_words(line):
    return [word for word in re.split(rb"[ \t\r]+", line) if word]


def cut_lines(text):
    lines = text.split(b"\n")
    return lines[:-1] if lines[-1] == b"" else lines


def word_codes(place, word, earlier):
    if place[0] in (NUMBER, PRIORITY):
        bare = word[1:] if place[0] == PRIORITY and word[:1] == b"-" else word
        if not DIGITS.match(bare):
            return {3}
        low, high = place[1:] if place[0] == NUMBER else (-2**31, 2**31 - 1)
        return set() if low <= int(word) <= high else {4}
    if place[0] == LITERAL:
        return set() if TEXT.match(word) else {14}
    if place[0] == EARLIER:
        return set() if word in earlier else {6}
    return set() if NAME.match(word) else {15}


def form_codes(words, earlier):
    first, rest = words[0], words[1:]
    if first in PLAIN:
        form = PLAIN[first]
    else:
        if first == b"filter" and rest[:1] == [b"not"]:
            rest = rest[1:]
        if not rest:
            return {2}
        if rest[0] not in CHOICES[first]:
            return {1}
        form, rest = CHOICES[first][rest[0]], rest[1:]
    codes = set()
    if isinstance(form, tuple):
        most, places = form[0], [form[1]] * form[0]
        needed = 1
    else:
        most, places, needed = len(form), form, len(form)
    if len(rest) < needed:
        codes.add(2)
    if len(rest) > most:
        codes.add(13)
    for place, word in zip(places, rest):
        codes |= word_codes(place, word, earlier)
    return codes


def all_codes(text):
    """The codes of each line, by its number."""
    found, job, names, jobs, workers, mine = {}, None, [], [], 0, []
    for number, line in enumerate(cut_lines(text), 1):
        if len(line) > 4096:
            found[number] = {11}
            continue
        words = cut_words(line)
        if not words or words[0][:1] == b"#":
            continue
        first = words[0]
        if first not in PLAIN and first not in CHOICES:
            found[number] = {1}
            continue
        if first == b"job":
            codes = form_codes(words, [])
            if words[1:] and words[1] in names:
                codes.add(7)
            if len(jobs) >= 64:
                codes.add(12)
            job, mine = number, []
            jobs.append((number, mine))
            names.append(words[1] if words[1:] else None)
        elif first == b"workers":
            codes = form_codes(words, [])
            if workers:
                codes.add(5)
            if job:
                codes.add(16)
            workers += 1
        else:
            codes = form_codes(words, names[:-1])
            if not job:
                codes.add(16)
            elif first in CHAIN:
                if sum(word in CHAIN for word in mine) >= 8:
                    codes.add(17)
            elif first in mine:
                codes.add(5)
            if job:
                mine.append(first)
        found[number] = codes
    for number, mine in jobs:
        if b"input" not in mine:
            found[number].add(8)
        if (b"map" in mine) == (b"filter" in mine):
            found[number].add(9)
        if b"order" in mine and b"reduce" not in mine:
            found[number].add(10)
    return found


def literal(word):
    raw = re.sub(rb"\\x([0-9a-fA-F]{2})", lambda found: bytes([int(found[1], 16)]), word)
    return b"".join(b"\\x%02x" % byte if byte <= 0x20 or byte in (0x7f, 0x5c) else bytes([byte]) for byte in raw)


def canonical_line(words):
    first, rest = words[0], words[1:]
    out = [first]
    form = PLAIN.get(first)
    if form is None:
        if first == b"filter" and rest[0] == b"not":
            out, rest = out + [b"not"], rest[1:]
        out.append(rest[0])
        form, rest = CHOICES[first][rest[0]], rest[1:]
    places = [form[1]] * len(rest) if isinstance(form, tuple) else form
    for place, word in zip(places, rest):
        if place[0] in (NUMBER, PRIORITY):
            word = b"%d" % int(word)
        elif place[0] == LITERAL:
            word = literal(word)
        out.append(word)
    return b" ".join(out)


def canonical(text):
    workers, jobs = b"workers 4", []
    for line in cut_lines(text):
        words = cut_words(line)
        if not words or words[0][:1] == b"#":
            continue
        if words[0] == b"workers":
            workers = canonical_line(words)
        elif words[0] == b"job":
            jobs.append((canonical_line(words), {}, []))
        elif words[0] in CHAIN:
            jobs[-1][2].append(canonical_line(words))
        else:
            jobs[-1][1][words[0]] = canonical_line(words)
    out = [workers]
    for name, said, chain in jobs:
        out += [name, said[b"input"], said.get(b"map") or said[b"filter"]]
        if b"reduce" in said:
            out += [said[b"reduce"], said.get(b"order", b"order unordered")]
        out += [said.get(b"blocks", b"blocks 16"), said.get(b"priority", b"priority 0")]
        out += [said[word] for word in (b"cancel-after", b"suspend-after", b"watch") if word in said]
        out += chain
    return b"".join(line + b"\n" for line in out)


def some_word(rng, place, names):
    if place[0] == NUMBER:
        value = rng.choice([place[1], place[2], rng.randint(place[1], place[2])])
        return (b"%d" % value).rjust(rng.randint(1, 10), b"0")
    if place[0] == PRIORITY:
        return b"%d" % rng.choice([0, -1, 2**31 - 1, -2**31, rng.randint(-99, 99)])
    if place[0] == EARLIER:
        return rng.choice(names) if names else b"nobody"
    if place[0] == NEW:
        return bytes(rng.choice(b"abAB09_-") for _ in range(rng.choice([1, 2, 64])))
    pieces = [b"\\x%02x" % rng.randrange(256), b"\\x%02X" % rng.randrange(256), b"a", b"*", b"~", b"\xc3\xa4"]
    return b"".join(rng.choice(pieces) for _ in range(rng.randint(1, 4)))


def some_line(rng, first, names):
    words = [first]
    form = PLAIN.get(first)
    if form is None:
        if first == b"filter" and rng.random() < 0.4:
            words.append(b"not")
        kinds = [kind for kind in CHOICES[first] if names or kind not in (b"job", b"all", b"any")]
        kind = rng.choice(kinds)
        words.append(kind)
        form = CHOICES[first][kind]
    places = [form[1]] * rng.choice([1, 2, form[0]]) if isinstance(form, tuple) else form
    words += [some_word(rng, place, names) for place in places]
    gap = rng.choice([b" ", b"  ", b"\t", b" \r "])
    return rng.choice([b"", b" "]) + gap.join(words) + rng.choice([b"", b"\r"])


def some_file(rng):
    lines, names = [], []
    if rng.random() < 0.3:
        lines.append(some_line(rng, b"workers", []))
    for _ in range(rng.choice([0, 1, 1, 2, 2, 3, 3, 3, 64, 66])):
        name = some_word(rng, (NEW,), [])
        while name in names:
            name = some_word(rng, (NEW,), [])
        own = [b"input", rng.choice([b"map", b"filter"])]
        if rng.random() < 0.4:
            own += [b"reduce"] + [b"order"] * rng.randint(0, 1)
        own += [word for word in (b"blocks", b"priority", b"cancel-after", b"suspend-after", b"watch") if rng.random() < 0.2]
        own += [rng.choice(CHAIN) for _ in range(rng.choice([0, 0, 1, 8]))]
        rng.shuffle(own)
        lines.append(b"job " + name)
        lines += [some_line(rng, first, names) for first in own]
        names.append(name)
    for _ in range(rng.choice([0, 1])):
        lines.insert(rng.randint(0, len(lines)), rng.choice([b"", b" \t", b"# words", b"#" * 4096]))
    for _ in range(rng.choice([0, 1, 1, 2])):
        spoil(rng, lines, names)
    return b"\n".join(lines) + rng.choice([b"", b"\n"])


def spoil(rng, lines, names):
    """One thing that may be wrong."""
    if not lines:
        return
    place = rng.randrange(len(lines))
    words = cut_words(lines[place]) or [b"x"]
    kind = rng.randrange(8)
    if kind == 0:
        words[rng.randrange(len(words))] = rng.choice([b"foo", b"0", b"99999999999", b"x\\", b"\x7f", b"-1", b"not", b"job"])
    elif kind == 1:
        words.pop()
    elif kind == 2:
        words.append(rng.choice([b"1", b"x", b"a\\q"]))
    elif kind == 3:
        words += [b"x" * 4097]
    if kind < 4:
        lines[place] = b" ".join(words)
    elif kind == 4:
        del lines[place]
    elif kind == 5:
        lines.insert(rng.randint(0, len(lines)), lines[place])
    else:
        first = rng.choice(list(PLAIN) + list(CHOICES))
        lines.insert(place, some_line(rng, first, names))


def wanted(text):
    found = [(line, min(codes)) for line, codes in all_codes(text).items() if codes]
    if not found:
        return 0, canonical(text), b""
    return 3, b"", b"qtc: bad job file: line %d code %d\n" % min(found)


def main():
    count = int(sys.argv[1]) if len(sys.argv) > 1 else 1000
    seed = int(sys.argv[2]) if len(sys.argv) > 2 else random.randrange(2**32)
    print(f"{count} files, seed {seed}", flush=True)
    rng = random.Random(seed)
    good, told = 0, {}
    with tempfile.TemporaryDirectory() as folder:
        name = os.path.join(folder, "random.job")
        for number in range(count):
            text = some_file(rng)
            with open(name, "wb") as file:
                file.write(text)
            run = subprocess.run(["./qtc", "check", name], capture_output=True)
            want = wanted(text)
            if (run.returncode, run.stdout, run.stderr) != want:
                print(f"file {number} differs:\n{text!r}\nwant {want}\ngot {(run.returncode, run.stdout, run.stderr)}")
                return 1
            good += want[0] == 0
            if want[0]:
                code = int(want[2].split()[-1])
                told[code] = told.get(code, 0) + 1
    print(f"no difference: {good} were read; refused by code: {dict(sorted(told.items()))}")
    return 0


if __name__ == "__main__":
    sys.exit(main())
