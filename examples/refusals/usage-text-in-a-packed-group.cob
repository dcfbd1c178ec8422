       IDENTIFICATION DIVISION.
       PROGRAM-ID. T.
       DATA DIVISION.
       WORKING-STORAGE SECTION.
       01 C COMP-3.
           05 D PIC 9(4).
           05 E PIC X(4).
       PROCEDURE DIVISION.
       A.
           STOP RUN.
