       IDENTIFICATION DIVISION.
       PROGRAM-ID. SIZE-JUMP.
       DATA DIVISION.
       WORKING-STORAGE SECTION.
       01 SEATS PIC 9 VALUE 9.
       PROCEDURE DIVISION.
       ONE-MORE.
           ADD 1 TO SEATS
               ON SIZE ERROR
                   CONTINUE
               NOT ON SIZE ERROR
                   DISPLAY SEATS
                   STOP RUN
           END-ADD
           DISPLAY "SOLD OUT"
           STOP RUN.
