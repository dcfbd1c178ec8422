       IDENTIFICATION DIVISION.
       PROGRAM-ID. T.
       DATA DIVISION.
       WORKING-STORAGE SECTION.
       01 G.
           02 N PIC 9.
       01 H.
           02 N PIC 9.
       PROCEDURE DIVISION.
       A.
           ADD 1 TO N.
