       IDENTIFICATION DIVISION.
       PROGRAM-ID. HELLO.
       DATA DIVISION.
       WORKING-STORAGE SECTION.
       01 T PIC X(2) VALUE "A1".
       01 N REDEFINES T PIC 9(2).
       PROCEDURE DIVISION.
       A.
           DISPLAY "ONE".
           DISPLAY "THREE".
           ADD 1 TO N.
           STOP RUN.
