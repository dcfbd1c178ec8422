       IDENTIFICATION DIVISION.
       PROGRAM-ID. T.
       DATA DIVISION.
       WORKING-STORAGE SECTION.
       01 N PIC 9 VALUE 0.
       01 RX-NEVER-1 PIC 9 VALUE 0.
       PROCEDURE DIVISION.
       A.
           PERFORM UNTIL RX-NEVER-1 = 1
               ADD 1 TO N
               IF N < 5
                   CONTINUE
               ELSE
                   STOP RUN
               END-IF
           END-PERFORM
           STOP RUN.
