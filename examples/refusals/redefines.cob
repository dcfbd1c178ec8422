       IDENTIFICATION DIVISION.
       PROGRAM-ID. T.
       DATA DIVISION.
       WORKING-STORAGE SECTION.
       01 G.
           02 N PIC 9.
           02 M REDEFINES N PIC 99.
       PROCEDURE DIVISION.
       A.
           STOP RUN.
