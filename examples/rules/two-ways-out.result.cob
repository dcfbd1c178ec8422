       IDENTIFICATION DIVISION.
       PROGRAM-ID. TWO-WAYS.
       DATA DIVISION.
       WORKING-STORAGE SECTION.
       01 N PIC 9(2) VALUE 20.
       01 RX-EXIT-1 PIC 9(6) VALUE 0.
       PROCEDURE DIVISION.
       NEXT-ONE.
           MOVE 0 TO RX-EXIT-1
           PERFORM UNTIL RX-EXIT-1 > 0
               SUBTRACT 3 FROM N
               IF N = 11
                   MOVE 1 TO RX-EXIT-1
               ELSE
                   IF N < 5
                       MOVE 2 TO RX-EXIT-1
                   ELSE
                       SUBTRACT 2 FROM N
                       IF N = 7
                           MOVE 1 TO RX-EXIT-1
                       END-IF
                   END-IF
               END-IF
           END-PERFORM
           EVALUATE RX-EXIT-1
               WHEN 1
                   DISPLAY "LUCKY"
           END-EVALUATE
           DISPLAY N
           STOP RUN.
