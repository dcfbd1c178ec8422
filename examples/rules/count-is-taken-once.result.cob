       IDENTIFICATION DIVISION.
       PROGRAM-ID. TAKEN-ONCE.
       DATA DIVISION.
       WORKING-STORAGE SECTION.
       01 COINS PIC 9 VALUE 3.
       01 RX-COUNT-1 PIC S9(18) VALUE 0.
       01 RX-FLAG-1 PIC 9 VALUE 0.
       PROCEDURE DIVISION.
       SPEND.
           MOVE COINS TO RX-COUNT-1
           MOVE 0 TO RX-FLAG-1
           PERFORM UNTIL RX-FLAG-1 = 1
               IF RX-COUNT-1 > 0
                   SUBTRACT 1 FROM RX-COUNT-1
                   SUBTRACT 1 FROM COINS
                   DISPLAY COINS
                   IF COINS = 1
                       MOVE 1 TO RX-FLAG-1
                   END-IF
               ELSE
                   MOVE 1 TO RX-FLAG-1
               END-IF
           END-PERFORM
           STOP RUN.
