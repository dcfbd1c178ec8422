      * READ INTO moves the record as MOVE does: decimals go to no text.
       IDENTIFICATION DIVISION.
       PROGRAM-ID. READ-INTO.
       ENVIRONMENT DIVISION.
       INPUT-OUTPUT SECTION.
       FILE-CONTROL.
           SELECT RATES ASSIGN TO "RATES.DAT".
       DATA DIVISION.
       FILE SECTION.
       FD RATES.
       01 RATE PIC 9V99.
       WORKING-STORAGE SECTION.
       01 RATE-TEXT PIC X(4).
       PROCEDURE DIVISION.
       FIRST-PART.
           OPEN INPUT RATES.
           READ RATES INTO RATE-TEXT.
           CLOSE RATES.
           STOP RUN.
