       IDENTIFICATION DIVISION.
       PROGRAM-ID. JOINED.
       DATA DIVISION.
       WORKING-STORAGE SECTION.
       01 AGE PIC 9(2) VALUE 17.
       PROCEDURE DIVISION.
       START-HERE.
           IF AGE < 18
               DISPLAY "HALF FARE"
           ELSE
               DISPLAY "FULL FARE"
           END-IF
           DISPLAY "THANK YOU"
           STOP RUN.
