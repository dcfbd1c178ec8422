       IDENTIFICATION DIVISION.
       PROGRAM-ID. HELLO.
       PROCEDURE DIVISION.
       A.
           DISPLAY "ONE".
           DISPLAY "FOUR".
           STOP RUN.
