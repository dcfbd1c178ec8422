       IDENTIFICATION DIVISION.
       PROGRAM-ID. T.
       ENVIRONMENT DIVISION.
       INPUT-OUTPUT SECTION.
       FILE-CONTROL.
           SELECT F ASSIGN TO "F.DAT".
       DATA DIVISION.
       FILE SECTION.
       FD F.
       01 R PIC X(4).
       FD G.
       01 Q PIC X(4).
       PROCEDURE DIVISION.
       A.
           STOP RUN.
