       IDENTIFICATION DIVISION.
       PROGRAM-ID. T.
       DATA DIVISION.
       WORKING-STORAGE SECTION.
       01 G.
           05 A OCCURS 65535.
               10 B OCCURS 65535.
                   15 C PIC X(65535).
       PROCEDURE DIVISION.
       P.
           STOP RUN.
