       IDENTIFICATION DIVISION.
       PROGRAM-ID. STOCKUPD.
       ENVIRONMENT DIVISION.
       INPUT-OUTPUT SECTION.
       FILE-CONTROL.
           SELECT OLD-MASTER ASSIGN TO "OLDSTOCK.DAT" FILE STATUS IS
               OLD-STATUS.
           SELECT TRANS-FILE ASSIGN TO "MOVES.DAT" FILE STATUS IS
               TRANS-STATUS.
           SELECT NEW-MASTER ASSIGN TO "NEWSTOCK.OUT".
           SELECT ERROR-FILE ASSIGN TO "REJECTS.OUT".
       DATA DIVISION.
       FILE SECTION.
       FD OLD-MASTER.
       01 OLD-RECORD.
           05 OLD-PART PIC X(6).
           05 OLD-NAME PIC X(14).
           05 OLD-ON-HAND PIC 9(5).
       FD TRANS-FILE.
       01 TRANS-RECORD.
           05 TRANS-PART PIC X(6).
           05 TRANS-CODE PIC X.
           88 IS-ADDITION VALUE "A".
           88 IS-DELETION VALUE "D".
           88 IS-ISSUE VALUE "I".
           88 IS-RECEIPT VALUE "R".
           05 TRANS-QUANTITY PIC 9(5).
           05 TRANS-NAME PIC X(14).
       FD NEW-MASTER.
       01 NEW-RECORD.
           05 NEW-PART PIC X(6).
           05 NEW-NAME PIC X(14).
           05 NEW-ON-HAND PIC 9(5).
       FD ERROR-FILE.
       01 ERROR-RECORD.
           05 ERROR-IMAGE PIC X(26).
           05 ERROR-TEXT PIC X(20).
       WORKING-STORAGE SECTION.
       77 OLD-STATUS PIC X(2).
       77 TRANS-STATUS PIC X(2).
       77 HELD-SWITCH PIC 9 VALUE 0.
           88 MASTER-IS-HELD VALUE 1.
       01 COUNTS.
           05 OLD-COUNT PIC 9(4) VALUE 0.
           05 TRANS-COUNT PIC 9(4) VALUE 0.
           05 NEW-COUNT PIC 9(4) VALUE 0.
           05 ERROR-COUNT PIC 9(4) VALUE 0.
       01 RX-STATE-1 PIC 9(6) VALUE 0.
       PROCEDURE DIVISION.
       OPEN-UP.
           OPEN INPUT OLD-MASTER TRANS-FILE
           IF OLD-STATUS NOT = "00"
               DISPLAY "OLD MASTER NOT THERE, STATUS " OLD-STATUS
           ELSE
               IF TRANS-STATUS NOT = "00"
                   CONTINUE
               ELSE
                   OPEN OUTPUT NEW-MASTER ERROR-FILE
                   PERFORM READ-OLD
                   PERFORM READ-TRANS
                   PERFORM UNTIL OLD-PART = HIGH-VALUE AND TRANS-PART =
                       HIGH-VALUE
                       IF OLD-PART < TRANS-PART
                           PERFORM HOLD-OLD
                           PERFORM WRITE-NEW
                       ELSE
                           IF OLD-PART = TRANS-PART
                               PERFORM HOLD-OLD
                           END-IF
                           MOVE TRANS-PART TO NEW-PART
                           PERFORM UNTIL TRANS-PART NOT = NEW-PART
                               PERFORM APPLY-TRANS
                               PERFORM READ-TRANS
                           END-PERFORM
                           IF MASTER-IS-HELD
                               PERFORM WRITE-NEW
                           END-IF
                       END-IF
                   END-PERFORM
                   CLOSE OLD-MASTER TRANS-FILE NEW-MASTER ERROR-FILE
                   DISPLAY "OLD " OLD-COUNT " TRANS " TRANS-COUNT
                       " NEW " NEW-COUNT " REJECTED " ERROR-COUNT
                   STOP RUN
               END-IF
               DISPLAY "NO TRANSACTIONS, STATUS " TRANS-STATUS
               CLOSE OLD-MASTER
           END-IF
           STOP RUN.
       APPLY-TRANS.
           MOVE 1 TO RX-STATE-1
           PERFORM UNTIL RX-STATE-1 = 0
               EVALUATE RX-STATE-1
                   WHEN 1
                       IF IS-ADDITION
                           IF MASTER-IS-HELD
                               MOVE "PART IS THERE" TO ERROR-TEXT
                               MOVE 2 TO RX-STATE-1
                           ELSE
                               MOVE TRANS-NAME TO NEW-NAME
                               MOVE 0 TO NEW-ON-HAND
                               MOVE 1 TO HELD-SWITCH
                               MOVE 3 TO RX-STATE-1
                           END-IF
                       ELSE
                           IF NOT (MASTER-IS-HELD)
                               MOVE "NO SUCH PART" TO ERROR-TEXT
                               MOVE 2 TO RX-STATE-1
                           ELSE
                               IF IS-DELETION
                               MOVE 0 TO HELD-SWITCH
                               MOVE 3 TO RX-STATE-1
                               ELSE
                               IF TRANS-QUANTITY NOT NUMERIC
                               MOVE "BAD QUANTITY" TO ERROR-TEXT
                               MOVE 2 TO RX-STATE-1
                               ELSE
                               IF IS-RECEIPT
                               ADD TRANS-QUANTITY TO NEW-ON-HAND
                               ON SIZE ERROR
                               MOVE "TOO MANY ON HAND" TO ERROR-TEXT
                               MOVE 2 TO RX-STATE-1
                               NOT ON SIZE ERROR
                               MOVE 3 TO RX-STATE-1
                               END-ADD
                               ELSE
                               IF NOT (IS-ISSUE)
                               MOVE "BAD CODE" TO ERROR-TEXT
                               MOVE 2 TO RX-STATE-1
                               ELSE
                               IF TRANS-QUANTITY > NEW-ON-HAND
                               MOVE "NOT ENOUGH ON HAND" TO ERROR-TEXT
                               MOVE 2 TO RX-STATE-1
                               ELSE
                               SUBTRACT TRANS-QUANTITY FROM NEW-ON-HAND
                               MOVE 3 TO RX-STATE-1
                               END-IF
                               END-IF
                               END-IF
                               END-IF
                               END-IF
                           END-IF
                       END-IF
                   WHEN 2
                       MOVE TRANS-RECORD TO ERROR-IMAGE
                       WRITE ERROR-RECORD
                       ADD 1 TO ERROR-COUNT
                       MOVE 3 TO RX-STATE-1
                   WHEN 3
                       MOVE 0 TO RX-STATE-1
               END-EVALUATE
           END-PERFORM.
       HOLD-OLD.
           MOVE OLD-RECORD TO NEW-RECORD
           MOVE 1 TO HELD-SWITCH
           PERFORM READ-OLD.
       WRITE-NEW.
           WRITE NEW-RECORD
           ADD 1 TO NEW-COUNT
           MOVE 0 TO HELD-SWITCH.
       READ-OLD.
           READ OLD-MASTER
               AT END
                   MOVE HIGH-VALUE TO OLD-PART
           END-READ
           IF OLD-PART NOT = HIGH-VALUE
               ADD 1 TO OLD-COUNT
           END-IF.
       READ-TRANS.
           READ TRANS-FILE
               AT END
                   MOVE HIGH-VALUE TO TRANS-PART
           END-READ
           IF TRANS-PART NOT = HIGH-VALUE
               ADD 1 TO TRANS-COUNT
           END-IF.
