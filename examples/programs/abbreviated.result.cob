       IDENTIFICATION DIVISION.
       PROGRAM-ID. ABBREVIATED.
       DATA DIVISION.
       WORKING-STORAGE SECTION.
       01 AGE PIC 9(2) VALUE 17.
           88 OLD VALUE 65 THRU 99.
       01 FARE PIC 9 VALUE 0.
       PROCEDURE DIVISION.
       FIND-FARE.
           IF (AGE = 7 OR (AGE = 9 AND AGE < 15)) OR AGE <= 17
               MOVE 1 TO FARE
           END-IF
           IF AGE >= 18 AND AGE <= 64
               MOVE 2 TO FARE
           END-IF
           IF (OLD OR AGE = 15) OR AGE = 16
               CONTINUE
           ELSE
               IF (FARE > 0 AND AGE POSITIVE) AND NOT (OLD)
                   DISPLAY "FARE " FARE
                   STOP RUN
               END-IF
           END-IF
           DISPLAY "NO FARE"
           STOP RUN.
