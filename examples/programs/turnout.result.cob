       IDENTIFICATION DIVISION.
       PROGRAM-ID. TURNOUT.
       ENVIRONMENT DIVISION.
       INPUT-OUTPUT SECTION.
       FILE-CONTROL.
           SELECT BOXES ASSIGN TO "BOXES.DAT".
       DATA DIVISION.
       FILE SECTION.
       FD BOXES.
       01 BOX-LINE.
           05 BOX-LIST PIC 9.
           05 BOX-VOTES PIC 9(5).
       WORKING-STORAGE SECTION.
       01 VOTES.
           05 LIST-VOTES PIC 9(7) BINARY OCCURS 4.
           05 ALL-VOTES PIC 9(8) BINARY.
       01 LIST-NUMBER PIC S9(4) BINARY VALUE 1.
       01 SHARE PIC S9(3)V9(4) PACKED-DECIMAL.
       01 SHARE-SHOWN PIC Z(2)9.9(2).
       01 RX-FLAG-1 PIC 9 VALUE 0.
       01 RX-FLAG-2 PIC 9 VALUE 0.
       PROCEDURE DIVISION.
       COUNT-BOXES.
           OPEN INPUT BOXES
           MOVE 0 TO RX-FLAG-1
           PERFORM UNTIL RX-FLAG-1 = 1
               READ BOXES
                   AT END
                       MOVE 1 TO RX-FLAG-1
                   NOT AT END
                       IF BOX-LINE NOT NUMERIC
                           CONTINUE
                       ELSE
                           IF BOX-LIST < 1 OR BOX-LIST > 4
                               CONTINUE
                           ELSE
                               ADD BOX-VOTES TO LIST-VOTES (BOX-LIST)
                                   ALL-VOTES
                           END-IF
                       END-IF
               END-READ
           END-PERFORM
           CLOSE BOXES
           MOVE 0 TO RX-FLAG-2
           PERFORM UNTIL RX-FLAG-2 = 1
               DIVIDE ALL-VOTES INTO LIST-VOTES (LIST-NUMBER) GIVING
                   SHARE
                   ON SIZE ERROR
                       DISPLAY "NO VOTES"
                       MOVE 1 TO RX-FLAG-2
                   NOT ON SIZE ERROR
                       MULTIPLY 100 BY SHARE
                       MOVE SHARE TO SHARE-SHOWN
                       DISPLAY LIST-VOTES (LIST-NUMBER) SHARE-SHOWN "%"
                       ADD 1 TO LIST-NUMBER
                       IF LIST-NUMBER <= 4
                           CONTINUE
                       ELSE
                           MOVE 1 TO RX-FLAG-2
                       END-IF
               END-DIVIDE
           END-PERFORM
           STOP RUN.
