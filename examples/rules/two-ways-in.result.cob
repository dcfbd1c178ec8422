       IDENTIFICATION DIVISION.
       PROGRAM-ID. TWO-WAYS-IN.
       DATA DIVISION.
       WORKING-STORAGE SECTION.
       01 DOOR PIC 9 VALUE 2.
       01 RX-STATE-1 PIC 9(6) VALUE 0.
       PROCEDURE DIVISION.
       STREET.
           MOVE 1 TO RX-STATE-1
           PERFORM UNTIL RX-STATE-1 = 0
               EVALUATE RX-STATE-1
                   WHEN 1
                       IF DOOR = 1
                           MOVE 3 TO RX-STATE-1
                       ELSE
                           MOVE 2 TO RX-STATE-1
                       END-IF
                   WHEN 2
                       DISPLAY "HALL"
                       MOVE 3 TO RX-STATE-1
                   WHEN 3
                       DISPLAY "KITCHEN"
                       IF DOOR = 2
                           STOP RUN
                       END-IF
                       MOVE 2 TO RX-STATE-1
               END-EVALUATE
           END-PERFORM
           STOP RUN.
