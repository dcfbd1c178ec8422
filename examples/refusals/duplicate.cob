       IDENTIFICATION DIVISION.
       PROGRAM-ID. T.
       PROCEDURE DIVISION.
       A.
           DISPLAY "ONE".
       A.
           STOP RUN.
