       IDENTIFICATION DIVISION.
       PROGRAM-ID. TWO-WAYS.
       DATA DIVISION.
       WORKING-STORAGE SECTION.
       01 N PIC 99 VALUE 20.
       PROCEDURE DIVISION.
       NEXT-ONE.
           SUBTRACT 3 FROM N.
           IF N = 11 GO TO LUCKY.
           IF N < 5 GO TO ALL-DONE.
           SUBTRACT 2 FROM N.
           IF N = 7 GO TO LUCKY.
           GO TO NEXT-ONE.
       LUCKY.
           DISPLAY "LUCKY".
       ALL-DONE.
           DISPLAY N.
           STOP RUN.
