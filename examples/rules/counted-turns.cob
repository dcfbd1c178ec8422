       IDENTIFICATION DIVISION.
       PROGRAM-ID. COUNTED.
       DATA DIVISION.
       WORKING-STORAGE SECTION.
       01 N PIC 9 VALUE 5.
       PROCEDURE DIVISION.
       START-HERE.
           PERFORM N TIMES
               DISPLAY N
               SUBTRACT 1 FROM N
               IF N = 2 GO TO ENOUGH
               END-IF
           END-PERFORM.
           DISPLAY "ALL TURNS".
           STOP RUN.
       ENOUGH.
           DISPLAY "ENOUGH".
           STOP RUN.
