#!/usr/bin/env python3
"""Restructures programs, and has GnuCOBOL check the syntax of each result by several standards.

    python3 tools/results_compile.py PROGRAM FOLDER ..          each .cob at or below these folders
    python3 tools/results_compile.py PROGRAM --generated 1 100  what PROGRAM generate 1 .. 100 writes

PROGRAM is the built program. A source that is refused has no result, and a result below the folders is
taken as a source too. Where cobc doesn't take a result, the source is tried by the same standard: if cobc
takes that neither, a word of the source is reserved there, and this is told alone. Needs cobc."""
import collections
import os
import shutil
import subprocess
import sys
import tempfile

STANDARDS = ["default", "cobol85", "ibm", "mf", "cobol2002"]
BATCH = 64


def sources(program, words):
    if words[0] == "--generated":
        for number in range(int(words[1]), int(words[2]) + 1):
            run = subprocess.run([program, "generate", str(number)], capture_output=True, check=True)
            yield "generate %d" % number, run.stdout
        return
    for top in words:
        for folder, below, names in os.walk(top):
            below.sort()
            for name in sorted(names):
                if name.endswith(".cob"):
                    path = os.path.join(folder, name)
                    with open(path, "rb") as file:
                        yield path, file.read()


def refused(standard, paths):
    """Those of the paths that cobc doesn't take by this standard, each with what it says first."""
    run = subprocess.run(["cobc", "-fsyntax-only", "-std=" + standard, *paths], capture_output=True)
    if run.returncode == 0:
        return {}
    if len(paths) == 1:
        said = run.stderr.decode(errors="replace").splitlines()
        errors = [line for line in said if ": error:" in line] or said or ["no word"]
        return {paths[0]: errors[0]}
    half = len(paths) // 2
    return {**refused(standard, paths[:half]), **refused(standard, paths[half:])}


def tried(folder, batch, counts):
    """The results of the batch by each standard; how many cobc takes and doesn't."""
    for standard in STANDARDS:
        bad = refused(standard, [os.path.join(folder, "%d.result.cob" % at) for at in range(len(batch))])
        counts[standard, "taken"] += len(batch) - len(bad)
        for path, why in bad.items():
            name = batch[int(os.path.basename(path).split(".")[0])]
            alone = not refused(standard, [path.replace(".result", "")])
            kind = "RESULT NOT TAKEN" if alone else "neither source nor result taken"
            counts[standard, kind] += 1
            print("%s: -std=%s: %s: %s" % (name, standard, kind, os.path.basename(why)))


def main():
    if len(sys.argv) < 3:
        sys.exit(__doc__)
    if not shutil.which("cobc"):
        sys.exit("cobc isn't there")
    program = os.path.abspath(sys.argv[1])
    counts, statuses = collections.Counter(), collections.Counter()
    with tempfile.TemporaryDirectory() as folder:
        batch = []
        for name, source in sources(program, sys.argv[2:]):
            run = subprocess.run([program, "restructure"], input=source, capture_output=True)
            statuses[run.returncode] += 1
            if run.returncode != 0:
                continue
            for kind, text in ("", source), (".result", run.stdout):
                with open(os.path.join(folder, "%d%s.cob" % (len(batch), kind)), "wb") as file:
                    file.write(text)
            batch.append(name)
            if len(batch) == BATCH:
                tried(folder, batch, counts)
                batch = []
        if batch:
            tried(folder, batch, counts)
    print("statuses: " + ", ".join("%d of %d" % (n, status) for status, n in sorted(statuses.items())))
    for standard in STANDARDS:
        told = sorted((kind, n) for (of, kind), n in counts.items() if of == standard)
        print("-std=%s: %s" % (standard, ", ".join("%d %s" % (n, kind) for kind, n in told)))
    sys.exit(1 if any(n and kind == "RESULT NOT TAKEN" for (_, kind), n in counts.items()) else 0)


if __name__ == "__main__":
    main()
