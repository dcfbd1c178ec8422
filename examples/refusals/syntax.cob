       IDENTIFICATION DIVISION.
       PROGRAM-ID. T.
       DATA DIVISION.
       WORKING-STORAGE SECTION.
       01 N PIC 9.
       PROCEDURE DIVISION.
       A.
           IF N = 1
               DISPLAY "ONE"
