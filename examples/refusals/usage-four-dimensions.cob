       IDENTIFICATION DIVISION.
       PROGRAM-ID. T.
       DATA DIVISION.
       WORKING-STORAGE SECTION.
       01 T.
           02 A1 OCCURS 2.
              03 B1 OCCURS 2.
                 04 C1 OCCURS 2.
                    05 D1 PIC 9 OCCURS 2.
       PROCEDURE DIVISION.
       A.
           STOP RUN.
