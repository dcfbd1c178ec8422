       IDENTIFICATION DIVISION.
       PROGRAM-ID. T.
       DATA DIVISION.
       WORKING-STORAGE SECTION.
       01 C PIC ZZ9.9.
       01 N PIC 9(3)V9 VALUE 1.5.
       PROCEDURE DIVISION.
       A.
           MOVE N TO C.
           IF N = C DISPLAY C.
           STOP RUN.
