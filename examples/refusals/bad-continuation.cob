       IDENTIFICATION DIVISION.
       PROGRAM-ID. T.
       PROCEDURE DIVISION.
       A.
           DISPLAY "ONE".
      -    DISPLAY "TWO".
      -
