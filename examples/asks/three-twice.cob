       IDENTIFICATION DIVISION.
       PROGRAM-ID. HELLO.
       PROCEDURE DIVISION.
       A.
           DISPLAY "ONE".
           DISPLAY "THREE".
           DISPLAY "THREE".
           STOP RUN.
