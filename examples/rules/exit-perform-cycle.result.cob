       IDENTIFICATION DIVISION.
       PROGRAM-ID. EXIT-TURN.
       DATA DIVISION.
       WORKING-STORAGE SECTION.
       01 STAIRS PIC 9 VALUE 0.
       PROCEDURE DIVISION.
       CLIMB.
           MOVE 1 TO STAIRS
           PERFORM UNTIL STAIRS > 5
               IF STAIRS = 2 OR STAIRS = 4
                   CONTINUE
               ELSE
                   DISPLAY STAIRS
               END-IF
               ADD 1 TO STAIRS
           END-PERFORM
           DISPLAY "TOP"
           STOP RUN.
