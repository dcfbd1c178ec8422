#!/usr/bin/env python3
"""Restructures programs, and runs each beside its result as GnuCOBOL compiles them: both are to show and
leave the same.

    python3 tools/gnucobol_runs.py PROGRAM SOURCE.cob ..      these sources
    python3 tools/gnucobol_runs.py PROGRAM --generated 1 100  what PROGRAM generate 1 .. 100 writes

PROGRAM is the built program. Files beside a source whose names end in .dat or .DAT are copied into the
folder in which it runs, and its result; what both leave there is compared, with what they show and their
exit statuses. A source that cobc doesn't take, or that runs longer than ten seconds, is told and counts as
skipped. Needs cobc."""
import collections
import glob
import os
import re
import shutil
import subprocess
import sys
import tempfile

COMPILE = ["cobc", "-x", "-std=default", "-o"]


def restructured(program, source):
    run = subprocess.run([program, "restructure"], input=source, capture_output=True)
    return run.stdout if run.returncode == 0 else None, run.stderr.decode().strip()


def compiled(folder, name, text):
    """The path of the compiled text, or what cobc says."""
    path = os.path.join(folder, name + ".cob")
    with open(path, "wb") as file:
        file.write(text)
    made = os.path.join(folder, name)
    run = subprocess.run(COMPILE + [made, path], capture_output=True, cwd=folder)
    return (made, "") if run.returncode == 0 else (None, run.stderr.decode(errors="replace").strip())


def what_it_does(made, data):
    """Its exit status, what it shows, and the files that it leaves; None where it takes too long."""
    with tempfile.TemporaryDirectory() as folder:
        for path in data:
            shutil.copy(path, folder)
        try:
            run = subprocess.run([made], capture_output=True, cwd=folder, timeout=10, stdin=subprocess.DEVNULL)
        except subprocess.TimeoutExpired:
            return None
        left = {}
        for name in sorted(os.listdir(folder)):
            with open(os.path.join(folder, name), "rb") as file:
                left[name] = file.read()
        return run.returncode, run.stdout, left


def compared(program, name, source, data):
    result, notes = restructured(program, source)
    if result is None:
        return "refused", notes
    with tempfile.TemporaryDirectory() as folder:
        first, why = compiled(folder, "source", source)
        if first is None:
            return "skipped: cobc takes no such source", why
        second, why = compiled(folder, "result", result)
        if second is None:
            return "RESULT NOT COMPILED", why
        one = what_it_does(first, data)
        if one is None:
            return "skipped: runs too long", ""
        other = what_it_does(second, data)
        if one != other:
            return "DIFFERS", "%s\n%s" % (one, other)
        return "same", ""


def sources(program, words):
    if words[:1] == ["--generated"]:
        for number in range(int(words[1]), int(words[2]) + 1):
            run = subprocess.run([program, "generate", str(number)], capture_output=True, check=True)
            yield "generate %d" % number, run.stdout, []
    else:
        for path in words:
            beside = os.path.dirname(os.path.abspath(path))
            data = glob.glob(os.path.join(beside, "*.dat")) + glob.glob(os.path.join(beside, "*.DAT"))
            with open(path, "rb") as file:
                yield path, file.read(), data


def main():
    if len(sys.argv) < 3:
        sys.exit(__doc__)
    if not shutil.which("cobc"):
        sys.exit("cobc isn't there")
    program = os.path.abspath(sys.argv[1])
    counts = collections.Counter()
    for name, source, data in sources(program, sys.argv[2:]):
        came, why = compared(program, name, source, data)
        counts[came] += 1
        if came != "same":
            print("%s: %s%s" % (name, came, ": " + re.sub(r"\s+", " ", why)[:300] if why else ""))
    print(", ".join("%d %s" % (count, came) for came, count in sorted(counts.items())))
    sys.exit(1 if counts["DIFFERS"] + counts["RESULT NOT COMPILED"] else 0)


if __name__ == "__main__":
    main()
