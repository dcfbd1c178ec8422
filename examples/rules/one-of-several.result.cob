       IDENTIFICATION DIVISION.
       PROGRAM-ID. SEVERAL.
       DATA DIVISION.
       WORKING-STORAGE SECTION.
       01 KIND PIC 9 VALUE 2.
       PROCEDURE DIVISION.
       START-HERE.
           EVALUATE KIND
               WHEN 1
                   DISPLAY "CASH"
                   STOP RUN
               WHEN 2
                   CONTINUE
               WHEN OTHER
                   DISPLAY "UNKNOWN"
                   STOP RUN
           END-EVALUATE
           DISPLAY "CARD"
           STOP RUN.
