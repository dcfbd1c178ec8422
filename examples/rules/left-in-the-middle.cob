       IDENTIFICATION DIVISION.
       PROGRAM-ID. MIDDLE.
       DATA DIVISION.
       WORKING-STORAGE SECTION.
       01 N PIC 99 VALUE 3.
       PROCEDURE DIVISION.
       COUNT-DOWN.
           DISPLAY N.
           IF N = 1 GO TO LANDED.
           SUBTRACT 1 FROM N.
           GO TO COUNT-DOWN.
       LANDED.
           DISPLAY "GO".
           STOP RUN.
