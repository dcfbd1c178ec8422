       IDENTIFICATION DIVISION.
       PROGRAM-ID. HELLO.
       PROCEDURE DIVISION.
       A.
           DISPLAY "ONE".
           DISPLAY "THREE".
       B.
           GO TO B.
