       IDENTIFICATION DIVISION.
       PROGRAM-ID. T.
       PROCEDURE DIVISION.
       A.
           PERFORM B.
           STOP RUN.
       B.
           DISPLAY "B".
