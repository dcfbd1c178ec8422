       IDENTIFICATION DIVISION.
       PROGRAM-ID. SKIPS.
       DATA DIVISION.
       WORKING-STORAGE SECTION.
       01 DAY-NUMBER PIC 9 VALUE 9.
       PROCEDURE DIVISION.
       LOOK-AT-DAY.
           IF DAY-NUMBER = 1
               CONTINUE
           ELSE
               DISPLAY "NOT MONDAY"
           END-IF
           DISPLAY "DONE"
           STOP RUN.
