#!/usr/bin/env python3
"""Runs spoiled programs through the built program: none may crash, take a second, or be answered halfway.

    python3 tools/mutate.py PROGRAM COUNT [SEED]
    python3 tools/mutate.py PROGRAM prefixes

The second runs each prefix of each example. Each run of the first takes one of the examples, cuts it at a random place or changes, drops, doubles or moves some of its
bytes, words or lines, and looks at the answer: 0 with a result and no note, 2 or 4 with one note alone, or 3
with the lines of a trail alone."""
import collections
import glob
import os
import random
import subprocess
import sys
import time

HERE = os.path.dirname(os.path.dirname(os.path.abspath(__file__)))
BYTES = b" .\"'\n\t\r-*/()0123456789ABCXYZ:=<>,;\x00\x01\x7f\xff"


def spoiled(source, all_sources, r):
    text = bytearray(source)
    for _ in range(r.choice([1, 1, 1, 2, 4, 16])):
        at = r.randrange(len(text) + 1)
        to = min(len(text), at + r.choice([1, 1, 2, 8, 40]))
        kind = r.randrange(7)
        if kind == 0:
            del text[at:]
        elif kind == 1:
            text[at:to] = bytes(r.choice(BYTES) for _ in range(to - at))
        elif kind == 2:
            del text[at:to]
        elif kind == 3:
            text[at:at] = text[at:to]
        elif kind == 4:
            lines = text.split(b"\n")
            i, j = r.randrange(len(lines)), r.randrange(len(lines))
            lines[i], lines[j] = lines[j], lines[i]
            text = bytearray(b"\n".join(lines))
        elif kind == 5:
            other = r.choice(all_sources)
            begin = r.randrange(len(other) + 1)
            text[at:at] = other[begin:begin + r.choice([8, 80, 800])]
        else:
            words = text.split(b" ")
            i, j = r.randrange(len(words)), r.randrange(len(words))
            words[i], words[j] = words[j], words[i]
            text = bytearray(b" ".join(words))
    return bytes(text)


def fault(program, source):
    begun = time.monotonic()
    try:
        run = subprocess.run([program, "restructure"], input=source, capture_output=True, timeout=10)
    except subprocess.TimeoutExpired:
        return "no answer in ten seconds", None
    took = time.monotonic() - begun
    notes = run.stderr.split(b"\n")
    one_note = len(notes) == 2 and notes[0] != b"" and notes[1] == b""
    a_trail = len(notes) > 2 and notes[0].startswith(b"FLOW ") and notes[-1] == b"" and b"" not in notes[:-1]
    if run.returncode == 0:
        good = run.stdout != b"" and run.stderr == b""
    else:
        good = run.stdout == b"" and (a_trail if run.returncode == 3 else run.returncode in (2, 4) and one_note)
    if not good:
        return f"status {run.returncode}, {len(run.stdout)} bytes, {run.stderr[:80]!r}", run.returncode
    return (f"{took:.1f} seconds" if took > 1 else None), run.returncode


def spoiled_sources(sources, count, seed):
    r = random.Random(seed)
    for _ in range(count):
        yield spoiled(r.choice(sources), sources, r)


def prefixes(sources):
    for source in sources:
        for length in range(len(source)):
            yield source[:length]


def main():
    program, wanted = sys.argv[1], sys.argv[2]
    sources = []
    for name in sorted(glob.glob(HERE + "/examples/*/*.cob")):
        with open(name, "rb") as file:
            sources.append(file.read())
    if wanted == "prefixes":
        tried = prefixes(sources)
    else:
        tried = spoiled_sources(sources, int(wanted), int(sys.argv[3]) if len(sys.argv) > 3 else 1)
    count, statuses, bad = 0, collections.Counter(), 0
    for source in tried:
        found, status = fault(program, source)
        statuses[status] += 1
        if found:
            bad += 1
            print(f"run {count}: {found}: {source!r}")
        count += 1
    print(f"{count} runs, statuses {dict(sorted(statuses.items(), key=str))}, {bad} bad")
    return bad != 0


if __name__ == "__main__":
    sys.exit(main())
