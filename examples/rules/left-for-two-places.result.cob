       IDENTIFICATION DIVISION.
       PROGRAM-ID. TWO-PLACES.
       DATA DIVISION.
       WORKING-STORAGE SECTION.
       01 MILES PIC 9 VALUE 0.
       01 RX-EXIT-1 PIC 9(6) VALUE 0.
       PROCEDURE DIVISION.
       DRIVE-ON.
           MOVE 0 TO RX-EXIT-1
           PERFORM UNTIL RX-EXIT-1 > 0
               ADD 1 TO MILES
               IF MILES = 3
                   MOVE 1 TO RX-EXIT-1
               ELSE
                   IF MILES = 5
                       MOVE 2 TO RX-EXIT-1
                   ELSE
                       DISPLAY MILES
                       IF MILES = 7
                           MOVE 1 TO RX-EXIT-1
                       ELSE
                           IF MILES = 8
                               MOVE 2 TO RX-EXIT-1
                           END-IF
                       END-IF
                   END-IF
               END-IF
           END-PERFORM
           EVALUATE RX-EXIT-1
               WHEN 1
                   DISPLAY "SEA"
                   STOP RUN
           END-EVALUATE
           DISPLAY "HILLS"
           STOP RUN.
