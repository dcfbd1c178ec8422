       IDENTIFICATION DIVISION.
       PROGRAM-ID. T.
       PROCEDURE DIVISION.
       A.
           ALTER A TO PROCEED TO B.
       B.
           STOP RUN.
