       IDENTIFICATION DIVISION.
       PROGRAM-ID. COUNTED.
       DATA DIVISION.
       WORKING-STORAGE SECTION.
       01 N PIC 9 VALUE 5.
       01 RX-COUNT-1 PIC S9(18) VALUE 0.
       01 RX-FLAG-1 PIC 9 VALUE 0.
       PROCEDURE DIVISION.
       START-HERE.
           MOVE N TO RX-COUNT-1
           MOVE 0 TO RX-FLAG-1
           PERFORM UNTIL RX-FLAG-1 = 1
               IF RX-COUNT-1 > 0
                   SUBTRACT 1 FROM RX-COUNT-1
                   DISPLAY N
                   SUBTRACT 1 FROM N
                   IF N = 2
                       MOVE 1 TO RX-FLAG-1
                   END-IF
               ELSE
                   DISPLAY "ALL TURNS"
                   STOP RUN
               END-IF
           END-PERFORM
           DISPLAY "ENOUGH"
           STOP RUN.
