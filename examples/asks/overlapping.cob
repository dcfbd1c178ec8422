       IDENTIFICATION DIVISION.
       PROGRAM-ID. T.
       DATA DIVISION.
       WORKING-STORAGE SECTION.
       01 N PIC 9 VALUE 0.
       PROCEDURE DIVISION.
           PERFORM A THRU C.
           STOP RUN.
       A.
           PERFORM E.
           IF N = 1 PERFORM D.
       B.
           DISPLAY "B".
       C.
           DISPLAY "C".
       D.
           GO TO C.
       E.
           DISPLAY "E".
