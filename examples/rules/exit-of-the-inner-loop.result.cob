       IDENTIFICATION DIVISION.
       PROGRAM-ID. EXIT-INNER.
       DATA DIVISION.
       WORKING-STORAGE SECTION.
       01 SHELF PIC 9.
       01 BOOK PIC 9.
       01 RX-STATE-1 PIC 9(6) VALUE 0.
       PROCEDURE DIVISION.
       SEARCH-SHELVES.
           MOVE 1 TO RX-STATE-1
           PERFORM UNTIL RX-STATE-1 = 0
               EVALUATE RX-STATE-1
                   WHEN 1
                       MOVE 1 TO SHELF
                       MOVE 2 TO RX-STATE-1
                   WHEN 2
                       IF SHELF > 3
                           STOP RUN
                       ELSE
                           MOVE 0 TO BOOK
                       END-IF
                       MOVE 4 TO RX-STATE-1
                   WHEN 3
                       ADD 1 TO SHELF
                       MOVE 2 TO RX-STATE-1
                   WHEN 4
                       ADD 1 TO BOOK
                       IF BOOK < SHELF
                           MOVE 5 TO RX-STATE-1
                       ELSE
                           DISPLAY SHELF "," BOOK
                           IF BOOK > SHELF
                               MOVE 3 TO RX-STATE-1
                           ELSE
                               MOVE 5 TO RX-STATE-1
                           END-IF
                       END-IF
                   WHEN 5
                       IF BOOK = 9
                           MOVE 3 TO RX-STATE-1
                       ELSE
                           MOVE 4 TO RX-STATE-1
                       END-IF
               END-EVALUATE
           END-PERFORM
           STOP RUN.
