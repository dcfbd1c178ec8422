       IDENTIFICATION DIVISION.
       PROGRAM-ID. SENTENCES.
       DATA DIVISION.
       WORKING-STORAGE SECTION.
       01 N PIC 9 VALUE 1.
       PROCEDURE DIVISION.
       START-HERE.
           IF N = 1
               CONTINUE
           ELSE
               DISPLAY "NOT ONE"
               DISPLAY "SAME SENTENCE"
           END-IF
           DISPLAY "NEXT SENTENCE"
           STOP RUN.
