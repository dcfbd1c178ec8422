       IDENTIFICATION DIVISION.
       PROGRAM-ID. T.
       DATA DIVISION.
       WORKING-STORAGE SECTION.
       01 C COMP.
           05 D PIC 9(4).
           05 E PIC 9(4)
               DISPLAY.
       PROCEDURE DIVISION.
       A.
           STOP RUN.
