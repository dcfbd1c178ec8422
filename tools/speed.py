#!/usr/bin/env python3
"""Times the built program on sources of 40 KB, 400 KB and 4 MB beside `cobc -fsyntax-only`, in turns.

    python3 tools/speed.py PROGRAM [ROUNDS]

The sources are of the kind that sites have: groups of paragraphs that main performs THRU their exits, with
early exits by GO TO, a READ loop, nested IFs, a GO TO DEPENDING, and comment lines. A row is a size: the
least seconds of a processor of both, their ratio, the seconds for ten times the size as an exponent of
growth, and the peak of memory as a multiple of the source. Without cobc its columns stay empty."""
import fcntl
import math
import os
import re
import select
import shutil
import subprocess
import sys
import tempfile
import time

HEAD = """       IDENTIFICATION DIVISION.
       PROGRAM-ID. BATCH.
       ENVIRONMENT DIVISION.
       INPUT-OUTPUT SECTION.
       FILE-CONTROL.
           SELECT ORDERS ASSIGN TO "ORDERS.DAT"
               ORGANIZATION IS SEQUENTIAL.
       DATA DIVISION.
       FILE SECTION.
       FD  ORDERS.
       01  ORDER-LINE.
           05  ORDER-KIND        PIC 9.
           05  ORDER-AMOUNT      PIC 9(5).
       WORKING-STORAGE SECTION.
       01  ORDERS-OVER           PIC X VALUE "N".
       01  ORDERS-READ           PIC 9(7) VALUE 0.
       01  PRINT-LINE.
           05  PRINT-TEXT        PIC X(20).
           05  PRINT-NUMBER      PIC 9(7).
"""
ITEMS = """      *---------------------------------------------------------------*
      * WHAT GROUP {n} HAS SO FAR: HOW MANY ORDERS, WHAT THEY COME TO, THE
      * KIND OF THE LAST ONE, AND ITS SHARE OF ALL
      *---------------------------------------------------------------*
       01  TOTALS-{n}.
           05  COUNT-{n}         PIC 9(7) VALUE 0.
           05  AMOUNT-{n}        PIC S9(9)V99 VALUE 0.
           05  LAST-KIND-{n}     PIC 9 VALUE 0.
           05  SHARE-{n}         PIC S9(7) VALUE 0.
"""
GROUP = """      *****************************************************************
      * GROUP {n}: ORDERS OF ONE KIND ARE READ, SORTED OUT AND ADDED UP.
      * A LINE THAT IS OF NO KIND IS LEFT OUT, AND COUNTED BY NOBODY.
      *
      * IN:  ORDERS, FROM WHERE THE GROUP BEFORE LEFT OFF
      * OUT: COUNT-{n}, AMOUNT-{n} AND LAST-KIND-{n}
      *****************************************************************
       STEP-{n}.
           MOVE 0 TO COUNT-{n}.
           IF ORDERS-OVER = "Y" GO TO STEP-{n}-EXIT.
       STEP-{n}-READ.
           READ ORDERS AT END MOVE "Y" TO ORDERS-OVER
               GO TO STEP-{n}-EXIT.
           ADD 1 TO ORDERS-READ.
      *    AN ORDER WITHOUT A KIND IS AN OLD ONE, WHICH THE OFFICE KEEPS
      *    ON PAPER. IT IS READ OVER HERE, AND STANDS IN NO TOTAL.
           IF ORDER-KIND NOT NUMERIC GO TO STEP-{n}-READ.
           IF ORDER-AMOUNT > 100
               IF ORDER-KIND = LAST-KIND-{n}
                   ADD 1 TO COUNT-{n}
               ELSE
                   MOVE ORDER-KIND TO LAST-KIND-{n}
                   IF COUNT-{n} > 10
                       DISPLAY "GROUP {n} HAS " COUNT-{n}
                       MOVE 0 TO COUNT-{n}.
           GO TO STEP-{n}-ONE STEP-{n}-TWO STEP-{n}-EXIT
               DEPENDING ON ORDER-KIND.
           GO TO STEP-{n}-READ.
      *---------------------------------------------------------------*
      * KIND 1: AN ORDER THAT IS ADDED TO ITS GROUP, UP TO WHAT A TOTAL
      * CAN HOLD; BEHIND THAT THE GROUP IS LEFT AS IT IS.
      *---------------------------------------------------------------*
       STEP-{n}-ONE.
           ADD ORDER-AMOUNT TO AMOUNT-{n} ON SIZE ERROR
               DISPLAY "GROUP {n} IS TOO LARGE"
               GO TO STEP-{n}-EXIT.
           GO TO STEP-{n}-READ.
      *---------------------------------------------------------------*
      * KIND 2: AN ORDER THAT WAS TAKEN BACK. NO TOTAL GOES BELOW ZERO,
      * SINCE THE MONTH BEFORE MAY HAVE HAD THE ORDER ITSELF. WHAT SHARE
      * THE GROUP HAS IS WORKED OUT ANEW EACH TIME.
      *---------------------------------------------------------------*
       STEP-{n}-TWO.
           SUBTRACT ORDER-AMOUNT FROM AMOUNT-{n}.
           EVALUATE LAST-KIND-{n}
               WHEN 1
                   COMPUTE SHARE-{n} ROUNDED =
                       AMOUNT-{n} * 100 / (COUNT-{n} + 1)
               WHEN 2
                   MOVE AMOUNT-{n} TO SHARE-{n}
               WHEN OTHER
                   MOVE ZERO TO SHARE-{n}
           END-EVALUATE.
           IF SHARE-{n} > 50
               MOVE "LARGE ORDERS" TO PRINT-TEXT
               MOVE SHARE-{n} TO PRINT-NUMBER
               DISPLAY PRINT-LINE
           ELSE
               IF SHARE-{n} > 20
                   MOVE "ORDERS" TO PRINT-TEXT
                   MOVE SHARE-{n} TO PRINT-NUMBER
                   DISPLAY PRINT-LINE
               ELSE
                   NEXT SENTENCE.
           IF AMOUNT-{n} < 0 MOVE 0 TO AMOUNT-{n}
               GO TO STEP-{n}-EXIT.
           GO TO STEP-{n}-READ.
      *---------------------------------------------------------------*
      * THE END OF THE GROUP, AND OF WHAT MAIN-LINE PERFORMS OF IT
      *---------------------------------------------------------------*
      * CHANGED 84-03-12: A LINE OF NO KIND ENDED THE RUN. IT IS LEFT OUT
      * NOW, AS THE OFFICE ASKED FOR.
      * CHANGED 86-11-02: THE SHARE IS ROUNDED.
      *---------------------------------------------------------------*
       STEP-{n}-EXIT.
           EXIT.
"""


def source(size):
    """A source of about so many bytes."""
    each = len(ITEMS.format(n=100)) + len(GROUP.format(n=100)) + len("           PERFORM STEP-100 THRU STEP-100-EXIT.\n")
    count = max(1, (size - len(HEAD)) // each)
    numbers = range(1, count + 1)
    parts = [HEAD, *[ITEMS.format(n=n) for n in numbers]]
    parts.append("       PROCEDURE DIVISION.\n       MAIN-LINE.\n           OPEN INPUT ORDERS.\n")
    parts += ["           PERFORM STEP-%d THRU STEP-%d-EXIT.\n" % (n, n) for n in numbers]
    parts.append("           CLOSE ORDERS.\n           DISPLAY ORDERS-READ.\n           STOP RUN.\n")
    return "".join(parts + [GROUP.format(n=n) for n in numbers]).encode()


def peak(words, path):
    """The peak of a run's memory in bytes. The kernel's own figure counts what this script had before the run
    began, so the run is held at its first write, behind which it takes no memory, and asked then."""
    reading, writing = os.pipe()
    fcntl.fcntl(writing, fcntl.F_SETPIPE_SZ, 4096)
    with open(path, "rb") as given:
        child = subprocess.Popen(words, stdin=given, stdout=writing, stderr=subprocess.DEVNULL)
    os.close(writing)
    select.select([reading], [], [])
    time.sleep(0.05)
    with open("/proc/%d/status" % child.pid) as status:
        found = re.search(r"VmHWM:\s+(\d+) kB", status.read())
    while os.read(reading, 1 << 20):
        pass
    os.close(reading)
    child.wait()
    return 1024 * int(found[1])


def measured(words, path, wanted):
    """The seconds of a processor that a run takes."""
    with open(path, "rb") as given, open(os.devnull, "wb") as nowhere:
        child = subprocess.Popen(words, stdin=given, stdout=nowhere, stderr=subprocess.PIPE)
        notes = child.stderr.read()
        _, status, used = os.wait4(child.pid, 0)
        child.returncode = os.waitstatus_to_exitcode(status)
    if child.returncode != wanted:
        sys.exit("%s: status %d: %s" % (" ".join(words), child.returncode, notes[:300].decode(errors="replace")))
    return used.ru_utime + used.ru_stime


def main():
    if len(sys.argv) < 2:
        sys.exit(__doc__)
    program, rounds = os.path.abspath(sys.argv[1]), int(sys.argv[2]) if len(sys.argv) > 2 else 3
    has_cobc = shutil.which("cobc") is not None
    before = None
    with tempfile.TemporaryDirectory() as folder:
        for size in (40_000, 400_000, 4_000_000):
            path = os.path.join(folder, "batch.cob")
            text = source(size)
            with open(path, "wb") as file:
                file.write(text)
            ours, beside = [], []
            for _ in range(rounds):
                ours.append(measured([program, "restructure"], path, 0))
                if has_cobc:
                    beside.append(measured(["cobc", "-fsyntax-only", "-std=default", path], path, 0))
            took, memory = min(ours), peak([program, "restructure"], path)
            row = "%9d bytes: %.3f s" % (len(text), took)
            if beside:
                row += ", cobc %.3f s, ratio %.2f" % (min(beside), min(beside) / max(took, 0.001))
            if before:
                row += ", exponent %.2f" % (math.log(took / before[1]) / math.log(len(text) / before[0]))
            print(row + ", memory %.0f times the source" % (memory / len(text)))
            before = len(text), took


if __name__ == "__main__":
    main()
