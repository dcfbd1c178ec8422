      * A condition's name has no characters of its own.
       IDENTIFICATION DIVISION.
       PROGRAM-ID. CONDITION-WINDOW.
       DATA DIVISION.
       WORKING-STORAGE SECTION.
       01 ANSWER PIC X(3).
           88 AGREED VALUE "YES".
       PROCEDURE DIVISION.
       FIRST-PART.
           IF AGREED (1:1)
               DISPLAY "AGREED".
           STOP RUN.
