       IDENTIFICATION DIVISION.
       PROGRAM-ID. TWO-PLACES.
       DATA DIVISION.
       WORKING-STORAGE SECTION.
       01 MILES PIC 9 VALUE 0.
       PROCEDURE DIVISION.
       DRIVE-ON.
           ADD 1 TO MILES.
           IF MILES = 3 GO TO SEA.
           IF MILES = 5 GO TO HILLS.
           DISPLAY MILES.
           IF MILES = 7 GO TO SEA.
           IF MILES = 8 GO TO HILLS.
           GO TO DRIVE-ON.
       SEA.
           DISPLAY "SEA".
           STOP RUN.
       HILLS.
           DISPLAY "HILLS".
