       IDENTIFICATION DIVISION.
       PROGRAM-ID. T.
       DATA DIVISION.
       WORKING-STORAGE SECTION.
       01 G.
           02 N OCCURS 9999.
               03 M PIC X(2000).
       PROCEDURE DIVISION.
       A.
           STOP RUN.
