       IDENTIFICATION DIVISION.
       PROGRAM-ID. T.
       PROCEDURE DIVISION.
       A.
           DISPLAY "ONE".
           GO TO A.
