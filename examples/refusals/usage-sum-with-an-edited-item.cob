       IDENTIFICATION DIVISION.
       PROGRAM-ID. T.
       DATA DIVISION.
       WORKING-STORAGE SECTION.
       01 C PIC ZZ9.
       PROCEDURE DIVISION.
       A.
           MOVE 5 TO C.
           ADD 1 TO C.
           STOP RUN.
