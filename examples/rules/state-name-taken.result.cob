       IDENTIFICATION DIVISION.
       PROGRAM-ID. NAME-TAKEN.
       DATA DIVISION.
       WORKING-STORAGE SECTION.
       01 RX-STATE-1 PIC 9 VALUE 2.
       01 RX-STATE-2 PIC 9(6) VALUE 0.
       PROCEDURE DIVISION.
       STREET.
           MOVE 1 TO RX-STATE-2
           PERFORM UNTIL RX-STATE-2 = 0
               EVALUATE RX-STATE-2
                   WHEN 1
                       IF RX-STATE-1 = 1
                           MOVE 3 TO RX-STATE-2
                       ELSE
                           MOVE 2 TO RX-STATE-2
                       END-IF
                   WHEN 2
                       DISPLAY "HALL"
                       MOVE 3 TO RX-STATE-2
                   WHEN 3
                       DISPLAY "KITCHEN"
                       IF RX-STATE-1 = 2
                           STOP RUN
                       END-IF
                       MOVE 2 TO RX-STATE-2
               END-EVALUATE
           END-PERFORM
           STOP RUN.
