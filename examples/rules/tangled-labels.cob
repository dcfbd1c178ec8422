       IDENTIFICATION DIVISION.
       PROGRAM-ID. TANGLED.
       DATA DIVISION.
       WORKING-STORAGE SECTION.
       01 N PIC 9 VALUE 3.
       PROCEDURE DIVISION.
       ENTRANCE.
           IF N > 2 GO TO RIGHT-ONE.
       LEFT-ONE.
           DISPLAY "LEFT".
           SUBTRACT 1 FROM N.
           IF N = 0 GO TO GONE.
           GO TO RIGHT-ONE.
       RIGHT-ONE.
           DISPLAY "RIGHT".
           SUBTRACT 1 FROM N.
           IF N = 0 GO TO GONE.
           GO TO LEFT-ONE.
       GONE.
           STOP RUN.
