       IDENTIFICATION DIVISION.
       PROGRAM-ID. TWO-ENDLESS-LOOPS.
       DATA DIVISION.
       WORKING-STORAGE SECTION.
       01 SIDE PIC 9 VALUE 1.
       01 RX-NEVER-1 PIC 9 VALUE 0.
       PROCEDURE DIVISION.
       CROSSING.
           IF SIDE = 1
               CONTINUE
           ELSE
               PERFORM UNTIL RX-NEVER-1 = 1
                   DISPLAY "RIGHT"
               END-PERFORM
           END-IF
           PERFORM UNTIL RX-NEVER-1 = 1
               DISPLAY "LEFT"
           END-PERFORM
           STOP RUN.
