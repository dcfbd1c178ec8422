       IDENTIFICATION DIVISION.
       PROGRAM-ID. PARCELS.
       ENVIRONMENT DIVISION.
       INPUT-OUTPUT SECTION.
       FILE-CONTROL.
           SELECT PARCEL-FILE ASSIGN TO "PARCELS.DAT".
           SELECT PRICED-FILE ASSIGN TO "PRICED.OUT".
       DATA DIVISION.
       FILE SECTION.
       FD PARCEL-FILE.
       01 PARCEL-IN.
           05 PARCEL-NUMBER PIC 9(5).
           05 PARCEL-ZONE PIC X(3).
           05 PARCEL-WEIGHT PIC 9(3).
       FD PRICED-FILE.
       01 PRICED-OUT.
           05 PRICED-NUMBER PIC 9(5).
           05 PRICED-ZONE PIC X(3).
           05 PRICED-WEIGHT PIC 9(3).
           05 PRICED-PRICE PIC 9(5).
           05 PRICED-NOTE PIC X(12).
       WORKING-STORAGE SECTION.
       01 ZONE-VALUES.
           05 FILLER PIC X(23) VALUE "ABD0045006200890148 007".
           05 FILLER PIC X(23) VALUE "BEL0061007901120190 012".
           05 FILLER PIC X(23) VALUE "CAR0043006000850142 006".
           05 FILLER PIC X(23) VALUE "EXE0043006000850142 006".
           05 FILLER PIC X(23) VALUE "LON0039005400780131 005".
           05 FILLER PIC X(23) VALUE "MAN0041005700810137 006".
           05 FILLER PIC X(23) VALUE "ORK0075009801430260 019".
       01 ZONE-TABLE REDEFINES ZONE-VALUES.
           05 ZONE-ENTRY OCCURS 7.
           10 ZONE-NAME PIC X(3).
           10 ZONE-PRICES.
           15 ZONE-PRICE PIC 9(4) OCCURS 4.
           10 FILLER PIC X.
           10 ZONE-MORE PIC 9(3).
       01 STEP-VALUES PIC X(12) VALUE "002005010025".
       01 STEP-TABLE REDEFINES STEP-VALUES.
           05 STEP-WEIGHT PIC 9(3) OCCURS 4.
       77 ZONE-COUNT PIC 9(2) VALUE 7.
       77 LOW-END PIC 9(2).
       77 HIGH-END PIC 9(2).
       77 MIDDLE PIC 9(2).
       77 STEP-NUMBER PIC 9.
       77 EXCESS PIC 9(3).
       77 FOUND-ZONE PIC 9(2).
       77 PRICED-COUNT PIC 9(4) VALUE 0.
       77 UNKNOWN-COUNT PIC 9(4) VALUE 0.
       01 RX-FLAG-1 PIC 9 VALUE 0.
       01 RX-FLAG-2 PIC 9 VALUE 0.
       PROCEDURE DIVISION.
       010-START.
           OPEN INPUT PARCEL-FILE
           OPEN OUTPUT PRICED-FILE
           MOVE 0 TO RX-FLAG-1
           PERFORM UNTIL RX-FLAG-1 = 1
               READ PARCEL-FILE
                   AT END
                       MOVE 1 TO RX-FLAG-1
                   NOT AT END
                       MOVE PARCEL-NUMBER TO PRICED-NUMBER
                       MOVE PARCEL-ZONE TO PRICED-ZONE
                       MOVE PARCEL-WEIGHT TO PRICED-WEIGHT
                       MOVE 0 TO PRICED-PRICE
                       MOVE SPACE TO PRICED-NOTE
                       PERFORM 100-FIND-ZONE
                       IF FOUND-ZONE = 0
                           MOVE "NO SUCH ZONE" TO PRICED-NOTE
                           ADD 1 TO UNKNOWN-COUNT
                       ELSE
                           PERFORM 200-PRICE
                           ADD 1 TO PRICED-COUNT
                       END-IF
                       WRITE PRICED-OUT
               END-READ
           END-PERFORM
           CLOSE PARCEL-FILE PRICED-FILE
           DISPLAY "PRICED " PRICED-COUNT ", UNKNOWN ZONES "
               UNKNOWN-COUNT
           STOP RUN.
       100-FIND-ZONE.
           MOVE 0 TO FOUND-ZONE
           MOVE 1 TO LOW-END
           MOVE ZONE-COUNT TO HIGH-END
           MOVE 0 TO RX-FLAG-2
           PERFORM UNTIL RX-FLAG-2 = 1
               IF LOW-END > HIGH-END
                   MOVE 1 TO RX-FLAG-2
               ELSE
                   ADD LOW-END HIGH-END GIVING MIDDLE
                   DIVIDE 2 INTO MIDDLE
                   IF ZONE-NAME (MIDDLE) = PARCEL-ZONE
                       MOVE MIDDLE TO FOUND-ZONE
                       MOVE 1 TO RX-FLAG-2
                   ELSE
                       IF ZONE-NAME (MIDDLE) < PARCEL-ZONE
                           ADD 1 MIDDLE GIVING LOW-END
                       ELSE
                           IF MIDDLE = 1
                               MOVE 1 TO RX-FLAG-2
                           ELSE
                               SUBTRACT 1 FROM MIDDLE GIVING HIGH-END
                           END-IF
                       END-IF
                   END-IF
               END-IF
           END-PERFORM.
       200-PRICE.
           PERFORM 210-LOOK VARYING STEP-NUMBER FROM 1 BY 1 UNTIL
               STEP-NUMBER > 4 OR PARCEL-WEIGHT <= STEP-WEIGHT (
               STEP-NUMBER)
           IF STEP-NUMBER <= 4
               MOVE ZONE-PRICE (FOUND-ZONE STEP-NUMBER) TO PRICED-PRICE
           ELSE
               SUBTRACT STEP-WEIGHT (4) FROM PARCEL-WEIGHT GIVING EXCESS
               IF EXCESS > 50
                   MOVE "BY CARRIER" TO PRICED-NOTE
               ELSE
                   COMPUTE PRICED-PRICE = ZONE-PRICE (FOUND-ZONE 4) + (
                       EXCESS * ZONE-MORE (FOUND-ZONE))
               END-IF
           END-IF.
       210-LOOK.
           CONTINUE.
