       IDENTIFICATION DIVISION.
       PROGRAM-ID. SAVUPD.
       ENVIRONMENT DIVISION.
       INPUT-OUTPUT SECTION.
       FILE-CONTROL.
           SELECT OLD-MASTER ASSIGN TO "OLDSAVE.DAT".
           SELECT DAY-ENTRIES ASSIGN TO "ENTRIES.DAT".
           SELECT NEW-MASTER ASSIGN TO "NEWSAVE.OUT".
           SELECT LISTING ASSIGN TO "SAVELIST.OUT".
       DATA DIVISION.
       FILE SECTION.
       FD OLD-MASTER.
       01 OLD-RECORD.
           05 OLD-ACCOUNT PIC 9(7) PACKED-DECIMAL.
           05 OLD-NAME PIC X(12).
           05 OLD-BALANCE PIC S9(7)V9(2) PACKED-DECIMAL.
           05 OLD-INTEREST PIC S9(3)V9(4) PACKED-DECIMAL.
           05 OLD-BRANCH PIC 9(3) BINARY.
           05 OLD-ENTRIES PIC S9(4) BINARY.
       FD DAY-ENTRIES.
       01 DAY-ENTRY.
           05 ENTRY-ACCOUNT PIC 9(7).
           05 ENTRY-KIND PIC X.
           05 ENTRY-AMOUNT PIC 9(5)V9(2).
       FD NEW-MASTER.
       01 NEW-RECORD.
           05 NEW-ACCOUNT PIC 9(7) PACKED-DECIMAL.
           05 NEW-NAME PIC X(12).
           05 NEW-BALANCE PIC S9(7)V9(2) PACKED-DECIMAL.
           05 NEW-INTEREST PIC S9(3)V9(4) PACKED-DECIMAL.
           05 NEW-BRANCH PIC 9(3) BINARY.
           05 NEW-ENTRIES PIC S9(4) BINARY.
       FD LISTING.
       01 LIST-LINE PIC X(36).
       WORKING-STORAGE SECTION.
       01 COUNTERS.
           05 MASTERS-READ PIC 9(4) BINARY VALUE ZERO.
           05 MASTERS-WRITTEN PIC 9(4) BINARY VALUE ZERO.
           05 ENTRIES-READ PIC 9(4) BINARY VALUE ZERO.
           05 ENTRIES-REFUSED PIC 9(4) BINARY VALUE ZERO.
       01 SUBSCRIPTS.
           05 B PIC S9(4) BINARY VALUE ZERO.
           05 KIND-NUMBER PIC S9(4) BINARY VALUE ZERO.
       01 KEYS.
           05 OLD-KEY PIC 9(9) PACKED-DECIMAL VALUE 0.
           05 ENTRY-KEY PIC 9(9) PACKED-DECIMAL VALUE 0.
           05 END-KEY PIC 9(9) PACKED-DECIMAL VALUE 999999999.
       01 BRANCH-TABLE.
           05 BRANCH-TOTAL PIC S9(9)V9(2) PACKED-DECIMAL OCCURS 4 VALUE
               0.
           05 ALL-BRANCHES PIC S9(9)V9(2) PACKED-DECIMAL VALUE 0.
       77 DAY-RATE PIC SV9(9) PACKED-DECIMAL VALUE 0.
       01 ENTRY-LINE.
           05 LINE-ACCOUNT PIC Z(3)9B9(3).
           05 LINE-KIND PIC X(3).
           05 LINE-AMOUNT PIC Z(2),Z(2)9.9(2).
           05 LINE-REASON PIC X(15).
       01 BRANCH-LINE.
           05 FILLER PIC X(7) VALUE "BRANCH".
           05 BRANCH-SHOWN PIC Z9.
           05 TOTAL-SHOWN PIC $(3),$(3),$(2)9.9(2)-.
       01 RX-STATE-1 PIC 9(6) VALUE 0.
       01 RX-FLAG-1 PIC 9 VALUE 0.
       PROCEDURE DIVISION.
       BEGIN-RUN.
           OPEN INPUT OLD-MASTER DAY-ENTRIES OUTPUT NEW-MASTER LISTING
           PERFORM READ-MASTER
           PERFORM READ-ENTRY
           PERFORM UNTIL OLD-KEY = END-KEY
               MOVE OLD-RECORD TO NEW-RECORD
               PERFORM UNTIL ENTRY-KEY > OLD-KEY
                   IF ENTRY-KEY < OLD-KEY
                       MOVE "  NO ACCOUNT" TO LINE-REASON
                       PERFORM REFUSE
                   ELSE
                       PERFORM POST-ENTRY
                   END-IF
                   PERFORM READ-ENTRY
               END-PERFORM
               MOVE NEW-BRANCH TO B
               IF B < 1 OR B > 3
                   MOVE 4 TO B
               END-IF
               IF NEW-BALANCE NUMERIC
                   ADD NEW-BALANCE TO BRANCH-TOTAL (B) ALL-BRANCHES
               END-IF
               WRITE NEW-RECORD
               ADD 1 TO MASTERS-WRITTEN
               PERFORM READ-MASTER
           END-PERFORM
           PERFORM UNTIL ENTRY-KEY = END-KEY
               MOVE "  NO ACCOUNT" TO LINE-REASON
               PERFORM REFUSE
               PERFORM READ-ENTRY
           END-PERFORM
           PERFORM SHOW-BRANCH VARYING B FROM 1 BY 1 UNTIL B > 4
           MOVE ALL-BRANCHES TO TOTAL-SHOWN
           DISPLAY "ALL      " TOTAL-SHOWN
           DISPLAY "MASTERS " MASTERS-READ " IN, " MASTERS-WRITTEN
               " OUT, ENTRIES " ENTRIES-READ ", REFUSED "
               ENTRIES-REFUSED
           CLOSE OLD-MASTER DAY-ENTRIES NEW-MASTER LISTING
           STOP RUN.
       SHOW-BRANCH.
           MOVE B TO BRANCH-SHOWN
           MOVE BRANCH-TOTAL (B) TO TOTAL-SHOWN
           DISPLAY BRANCH-LINE.
       POST-ENTRY.
           MOVE 1 TO RX-STATE-1
           PERFORM UNTIL RX-STATE-1 = 0
               EVALUATE RX-STATE-1
                   WHEN 1
                       MOVE 0 TO KIND-NUMBER
                       IF ENTRY-KIND = "D"
                           MOVE 1 TO KIND-NUMBER
                       END-IF
                       IF ENTRY-KIND = "W"
                           MOVE 2 TO KIND-NUMBER
                       END-IF
                       IF ENTRY-KIND = "I"
                           MOVE 3 TO KIND-NUMBER
                       END-IF
                       IF NEW-BALANCE NOT NUMERIC
                           MOVE "  BAD MASTER" TO LINE-REASON
                           MOVE 2 TO RX-STATE-1
                       ELSE
                           EVALUATE KIND-NUMBER
                               WHEN 1
                               ADD ENTRY-AMOUNT TO NEW-BALANCE
                               ON SIZE ERROR
                               MOVE "  TOO MUCH" TO LINE-REASON
                               MOVE 2 TO RX-STATE-1
                               NOT ON SIZE ERROR
                               MOVE 3 TO RX-STATE-1
                               END-ADD
                               WHEN 2
                               IF ENTRY-AMOUNT > NEW-BALANCE
                               MOVE "  NOT ENOUGH" TO LINE-REASON
                               MOVE 2 TO RX-STATE-1
                               ELSE
                               SUBTRACT ENTRY-AMOUNT FROM NEW-BALANCE
                               MOVE 3 TO RX-STATE-1
                               END-IF
                               WHEN 3
                               IF NEW-BALANCE NEGATIVE
                               CONTINUE
                               ELSE
                               DIVIDE 36500 INTO ENTRY-AMOUNT GIVING
                                   DAY-RATE
                               COMPUTE NEW-INTEREST ROUNDED =
                                   NEW-INTEREST + (NEW-BALANCE *
                                   DAY-RATE)
                               IF NEW-INTEREST < 1
                               CONTINUE
                               ELSE
                               ADD NEW-INTEREST TO NEW-BALANCE ROUNDED
                               MOVE 0 TO NEW-INTEREST
                               END-IF
                               END-IF
                               MOVE 3 TO RX-STATE-1
                               WHEN OTHER
                               MOVE "  BAD KIND" TO LINE-REASON
                               MOVE 2 TO RX-STATE-1
                           END-EVALUATE
                       END-IF
                   WHEN 2
                       PERFORM REFUSE
                       MOVE 4 TO RX-STATE-1
                   WHEN 3
                       ADD 1 TO NEW-ENTRIES
                       MOVE 4 TO RX-STATE-1
                   WHEN 4
                       MOVE 0 TO RX-STATE-1
               END-EVALUATE
           END-PERFORM.
       REFUSE.
           MOVE ENTRY-ACCOUNT TO LINE-ACCOUNT
           MOVE ENTRY-KIND TO LINE-KIND
           MOVE ENTRY-AMOUNT TO LINE-AMOUNT
           WRITE LIST-LINE FROM ENTRY-LINE
           ADD 1 TO ENTRIES-REFUSED.
       READ-MASTER.
           READ OLD-MASTER
               AT END
                   MOVE END-KEY TO OLD-KEY
               NOT AT END
                   MOVE OLD-ACCOUNT TO OLD-KEY
                   ADD 1 TO MASTERS-READ
                   END-ADD
           END-READ.
       READ-ENTRY.
           MOVE 0 TO RX-FLAG-1
           PERFORM UNTIL RX-FLAG-1 = 1
               READ DAY-ENTRIES
                   AT END
                       MOVE END-KEY TO ENTRY-KEY
                       MOVE 1 TO RX-FLAG-1
                   NOT AT END
                       ADD 1 TO ENTRIES-READ
                       IF ENTRY-ACCOUNT NUMERIC AND ENTRY-AMOUNT NUMERIC
                           MOVE ENTRY-ACCOUNT TO ENTRY-KEY
                           MOVE 1 TO RX-FLAG-1
                       ELSE
                           ADD 1 TO ENTRIES-REFUSED
                       END-IF
               END-READ
           END-PERFORM.
