#!/usr/bin/env python3
"""Times `compare` beside the two runs that it makes, in turns.

    python3 tools/compare_speed.py PROGRAM [EARLIER [ROUNDS]]

Two programs are compared, each with a copy of itself: a loop of a million steps, and a copy of a file of 100,000
records. Told are the least seconds of a processor of so many rounds, of two runs and of `compare`, and how many times
as long `compare` takes; beside EARLIER, a build from before, how many times as long one run takes. All are measured
in one run, since such figures mean nothing beside those of another."""
import os
import resource
import shutil
import subprocess
import sys
import tempfile

LOOP = """       IDENTIFICATION DIVISION.
       PROGRAM-ID. TURNS.
       DATA DIVISION.
       WORKING-STORAGE SECTION.
       01 I PIC 9(8) VALUE 0.
       01 N PIC S9(7)V99 VALUE 0.
       PROCEDURE DIVISION.
       BEGIN-HERE.
           ADD 1 TO I.
           IF I > 100 ADD 1.25 TO N ON SIZE ERROR MOVE 0 TO N END-IF.
           IF I < 250000 GO TO BEGIN-HERE.
           DISPLAY N.
           STOP RUN.
"""
COPY = """       IDENTIFICATION DIVISION.
       PROGRAM-ID. COPIES.
       ENVIRONMENT DIVISION.
       INPUT-OUTPUT SECTION.
       FILE-CONTROL.
           SELECT OLD ASSIGN TO "OLD".
           SELECT NEW ASSIGN TO "NEW".
       DATA DIVISION.
       FILE SECTION.
       FD OLD.
       01 OLD-RECORD PIC X(80).
       FD NEW.
       01 NEW-RECORD PIC X(80).
       WORKING-STORAGE SECTION.
       01 AT-END PIC 9 VALUE 0.
       PROCEDURE DIVISION.
       BEGIN-HERE.
           OPEN INPUT OLD OUTPUT NEW.
           PERFORM UNTIL AT-END = 1
               READ OLD AT END MOVE 1 TO AT-END
                   NOT AT END MOVE OLD-RECORD TO NEW-RECORD
                       WRITE NEW-RECORD
               END-READ
           END-PERFORM.
           CLOSE OLD NEW.
           STOP RUN.
"""
STEPS = "9999999"


def seconds(words, text, folder):
    before = resource.getrusage(resource.RUSAGE_CHILDREN)
    ran = subprocess.run(words, input=text.encode(), cwd=folder, stdout=subprocess.PIPE, stderr=subprocess.PIPE)
    after = resource.getrusage(resource.RUSAGE_CHILDREN)
    if ran.returncode != 0:
        sys.exit("%s: status %d, %s" % (words, ran.returncode, ran.stderr.decode(errors="replace")))
    return after.ru_utime + after.ru_stime - before.ru_utime - before.ru_stime


def main():
    program = os.path.abspath(sys.argv[1])
    earlier = os.path.abspath(sys.argv[2]) if len(sys.argv) > 2 and sys.argv[2] != "-" else None
    rounds = int(sys.argv[3]) if len(sys.argv) > 3 else 5
    folder = tempfile.mkdtemp()
    try:
        os.mkdir(os.path.join(folder, "second"))
        for place in (folder, os.path.join(folder, "second")):
            with open(os.path.join(place, "OLD"), "w") as it:
                for number in range(100000):
                    it.write("%080d\n" % number)
        print("program  two runs  compare  ratio%s" % ("  run beside earlier" if earlier else ""))
        for name, text in (("loop", LOOP), ("copy", COPY)):
            runs, both, old = [], [], []
            for _ in range(rounds):
                runs.append(seconds([program, "run", "--steps", STEPS], text, folder))
                both.append(seconds([program, "compare", "--steps", STEPS], text + "======\n" + text, folder))
                if earlier:
                    old.append(seconds([earlier, "run", "--steps", STEPS], text, folder))
            line = "%-7s  %8.3f  %7.3f  %5.2f" % (name, 2 * min(runs), min(both), min(both) / (2 * min(runs)))
            print(line + ("  %18.2f" % (min(runs) / min(old)) if earlier else ""))
    finally:
        shutil.rmtree(folder)


main()
