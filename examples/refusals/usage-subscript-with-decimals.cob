       IDENTIFICATION DIVISION.
       PROGRAM-ID. T.
       DATA DIVISION.
       WORKING-STORAGE SECTION.
       01 N PIC 9V9 VALUE 1.5.
       01 T.
           05 E PIC 9 OCCURS 3.
       PROCEDURE DIVISION.
       A.
           DISPLAY E (N).
           STOP RUN.
