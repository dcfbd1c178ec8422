#!/usr/bin/env python3
"""Times statements as the built program runs them, beside an earlier build of it and beside `cobc -x`, in turns.

    python3 tools/run_speed.py PROGRAM [EARLIER [ROUNDS [TURNS]]]

A row is a kind of statement: ten of it in a loop of so many turns, less the same loop with ten CONTINUE in
their place. Told are the nanoseconds that a statement takes at the least of so many rounds, and how many times
as long EARLIER and cobc's program take; a column stays empty where there is no cobc, or EARLIER doesn't read the
program (give - for none). All are measured in one run, since such figures mean nothing beside those of another."""
import os
import shutil
import subprocess
import sys
import tempfile

HEAD = """       IDENTIFICATION DIVISION.
       PROGRAM-ID. TURNS.
       DATA DIVISION.
       WORKING-STORAGE SECTION.
       01 I PIC 9(8) VALUE 0.
       01 D1 PIC S9(7)V99 VALUE 12.34.
       01 D2 PIC S9(7)V99 VALUE 0.
       01 D3 PIC 9(4) VALUE 2.
       01 T1 PIC X(20) VALUE "SOME WORDS".
       01 T2 PIC X(20).
%s       PROCEDURE DIVISION.
       BEGIN-HERE.
           PERFORM UNTIL I = %d
%s               ADD 1 TO I
           END-PERFORM.
           DISPLAY I.
           STOP RUN.
"""
OTHERS = """       01 B1 PIC S9(7)V99 COMP VALUE 12.34.
       01 B2 PIC S9(7)V99 COMP VALUE 0.
       01 P1 PIC S9(7)V99 COMP-3 VALUE 12.34.
       01 P2 PIC S9(7)V99 COMP-3 VALUE 0.
       01 E1 PIC Z,ZZZ,ZZ9.99.
       01 E2 PIC $$,$$$,$$9.99CR.
       01 G.
           05 X1 PIC 9(4) COMP OCCURS 9.
"""
# the statement, and whether it needs the items that an earlier build may not read
KINDS = [("ADD 1 TO D3", False), ("ADD D1 TO D2", False), ("MOVE D1 TO D2", False), ("MOVE T1 TO T2", False),
         ("IF D1 > D2 CONTINUE END-IF", False), ("COMPUTE D2 = D1 * 3 / 7", False),
         ("ADD D1 TO B2", True), ("ADD B1 TO B2", True), ("ADD D1 TO P2", True), ("ADD P1 TO P2", True),
         ("MOVE P1 TO D2", True), ("MOVE D1 TO E1", True), ("MOVE D1 TO E2", True),
         ("MULTIPLY D1 BY 3 GIVING E1", True), ("ADD 1 TO X1 (D3)", True)]


def source(statement, others, turns):
    return (HEAD % (OTHERS if others else "", turns, ("               %s\n" % statement) * 10)).encode()


def took(words, text, folder):
    """The seconds of a processor, or None where the text is none that it takes."""
    child = subprocess.Popen(words, stdin=subprocess.PIPE, stdout=subprocess.DEVNULL, stderr=subprocess.DEVNULL, cwd=folder)
    try:
        child.stdin.write(text)
        child.stdin.close()
    except BrokenPipeError:
        pass
    _, status, used = os.wait4(child.pid, 0)
    child.returncode = os.waitstatus_to_exitcode(status)
    return used.ru_utime + used.ru_stime if child.returncode == 0 else None


def compiled(folder, name, text):
    path = os.path.join(folder, name)
    with open(path + ".cob", "wb") as file:
        file.write(text)
    subprocess.run(["cobc", "-x", "-std=default", "-o", path, path + ".cob"], check=True)
    return [path]


def main():
    if len(sys.argv) < 2:
        sys.exit(__doc__)
    programs = [os.path.abspath(path) for path in sys.argv[1:3] if path != "-"]
    rounds, turns = (int(word) for word in (sys.argv[3:] + ["5", "100000"][len(sys.argv[3:]):]))
    has_cobc = shutil.which("cobc") is not None
    with tempfile.TemporaryDirectory() as folder:
        for statement, others in KINDS:
            texts = [source(text, others, turns) for text in (statement, "CONTINUE")]
            runs = [[program, "run", "--steps", "999999999999"] for program in programs]
            least = {}
            if has_cobc:
                made = [compiled(folder, name, text) for name, text in zip(("LOOP", "EMPTY"), texts)]
            for _ in range(rounds):
                for number, text in enumerate(texts):
                    for who, words in enumerate(runs + ([made[number]] if has_cobc else [])):
                        who = "cobc" if who == len(runs) else who
                        seconds = took(words, text, folder)
                        if seconds is not None:
                            least[who, number] = min(seconds, least.get((who, number), seconds))
            each = {who: (least[who, 0] - least[who, 1]) / (turns * 10) * 1e9
                    for who in [*range(len(runs)), "cobc"] if (who, 0) in least}
            row = "%-30s %7.0f ns" % (statement, each[0])
            for who in each:
                if who != 0:
                    row += ", %s %.2f" % (who if who == "cobc" else "earlier", each[who] / max(each[0], 0.1))
            print(row, flush=True)


if __name__ == "__main__":
    main()
