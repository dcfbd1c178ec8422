       IDENTIFICATION DIVISION.
       PROGRAM-ID. TANGLED.
       DATA DIVISION.
       WORKING-STORAGE SECTION.
       01 N PIC 9 VALUE 3.
       01 RX-STATE-1 PIC 9(6) VALUE 0.
       PROCEDURE DIVISION.
       ENTRANCE.
           MOVE 1 TO RX-STATE-1
           PERFORM UNTIL RX-STATE-1 = 0
               EVALUATE RX-STATE-1
                   WHEN 1
                       IF N > 2
                           MOVE 3 TO RX-STATE-1
                       ELSE
                           MOVE 2 TO RX-STATE-1
                       END-IF
                   WHEN 2
                       DISPLAY "LEFT"
                       SUBTRACT 1 FROM N
                       IF N = 0
                           MOVE 4 TO RX-STATE-1
                       ELSE
                           MOVE 3 TO RX-STATE-1
                       END-IF
                   WHEN 3
                       DISPLAY "RIGHT"
                       SUBTRACT 1 FROM N
                       IF N = 0
                           MOVE 4 TO RX-STATE-1
                       ELSE
                           MOVE 2 TO RX-STATE-1
                       END-IF
                   WHEN 4
                       STOP RUN
               END-EVALUATE
           END-PERFORM
           STOP RUN.
