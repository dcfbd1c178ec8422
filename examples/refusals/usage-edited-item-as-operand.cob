       IDENTIFICATION DIVISION.
       PROGRAM-ID. T.
       DATA DIVISION.
       WORKING-STORAGE SECTION.
       01 C PIC ZZ9.
       01 N PIC 9(3).
       PROCEDURE DIVISION.
       A.
           MOVE 5 TO C.
           ADD C TO N.
           STOP RUN.
