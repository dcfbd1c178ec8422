       IDENTIFICATION DIVISION.
       PROGRAM-ID. REQUESTS.
       ENVIRONMENT DIVISION.
       INPUT-OUTPUT SECTION.
       FILE-CONTROL.
           SELECT CARDS ASSIGN TO "REQUESTS.DAT".
           SELECT ACCOUNTS ASSIGN TO "ACCOUNTS.DAT" FILE STATUS IS
               ACCOUNT-STATUS.
       DATA DIVISION.
       FILE SECTION.
       FD CARDS.
       01 CARD.
           05 CARD-CODE PIC 9.
           05 CARD-ACCOUNT PIC 9(4).
           05 FILLER PIC X(5).
       FD ACCOUNTS.
       01 ACCOUNT.
           05 ACCOUNT-NUMBER PIC 9(4).
           05 ACCOUNT-HOLDER PIC X(12).
           05 ACCOUNT-SIGN PIC X.
           88 OVERDRAWN VALUE "D".
           05 ACCOUNT-BALANCE PIC 9(6).
       WORKING-STORAGE SECTION.
       77 ACCOUNT-STATUS PIC X(2).
       77 CARD-COUNT PIC 9(3) VALUE 0.
       77 ACCOUNT-COUNT PIC 9(4).
       77 OVERDRAWN-TOTAL PIC 9(7).
       01 FILLER.
           05 END-OF-ACCOUNTS PIC 9.
           88 NO-MORE VALUE 1.
       01 RX-FLAG-1 PIC 9 VALUE 0.
       01 RX-EXIT-1 PIC 9(6) VALUE 0.
       01 RX-FLAG-2 PIC 9 VALUE 0.
       01 RX-FLAG-3 PIC 9 VALUE 0.
       01 RX-FLAG-4 PIC 9 VALUE 0.
       PROCEDURE DIVISION.
       START-UP.
           OPEN INPUT CARDS
           MOVE 0 TO RX-FLAG-1
           PERFORM UNTIL RX-FLAG-1 = 1
               MOVE 0 TO RX-EXIT-1
               PERFORM UNTIL RX-EXIT-1 > 0
                   READ CARDS
                       AT END
                           DISPLAY "NO STOP CARD"
                           MOVE 2 TO RX-EXIT-1
                       NOT AT END
                           ADD 1 TO CARD-COUNT
                           IF CARD-CODE NOT NUMERIC
                               MOVE 1 TO RX-EXIT-1
                           ELSE
                               EVALUATE CARD-CODE
                               WHEN 1
                               PERFORM COUNT-PHASE
                               WHEN 2
                               PERFORM FIND-PHASE
                               WHEN 3
                               PERFORM OVERDRAWN-PHASE
                               WHEN 4
                               MOVE 2 TO RX-EXIT-1
                               WHEN OTHER
                               MOVE 1 TO RX-EXIT-1
                               END-EVALUATE
                           END-IF
                   END-READ
               END-PERFORM
               EVALUATE RX-EXIT-1
                   WHEN 1
                       DISPLAY "CARD " CARD-COUNT " ISN'T A REQUEST: "
                           CARD
                   WHEN OTHER
                       MOVE 1 TO RX-FLAG-1
               END-EVALUATE
           END-PERFORM
           CLOSE CARDS
           DISPLAY "CARDS " CARD-COUNT
           STOP RUN.
       COUNT-PHASE.
           MOVE 0 TO ACCOUNT-COUNT
           PERFORM OPEN-ACCOUNTS
           IF NO-MORE
               CONTINUE
           ELSE
               MOVE 0 TO RX-FLAG-2
               PERFORM UNTIL RX-FLAG-2 = 1
                   READ ACCOUNTS
                       AT END
                           MOVE 1 TO RX-FLAG-2
                       NOT AT END
                           ADD 1 TO ACCOUNT-COUNT
                           END-ADD
                   END-READ
               END-PERFORM
               CLOSE ACCOUNTS
               DISPLAY "ACCOUNTS " ACCOUNT-COUNT
           END-IF.
       FIND-PHASE.
           IF CARD-ACCOUNT NOT NUMERIC
               DISPLAY "NO ACCOUNT NUMBER ON CARD " CARD-COUNT
           ELSE
               PERFORM OPEN-ACCOUNTS
               IF NO-MORE
                   CONTINUE
               ELSE
                   MOVE 0 TO RX-FLAG-3
                   PERFORM UNTIL RX-FLAG-3 = 1
                       READ ACCOUNTS
                           AT END
                               DISPLAY "ACCOUNT " CARD-ACCOUNT
                                   " NOT FOUND"
                               MOVE 1 TO RX-FLAG-3
                           NOT AT END
                               IF ACCOUNT-NUMBER < CARD-ACCOUNT
                               CONTINUE
                               ELSE
                               IF ACCOUNT-NUMBER > CARD-ACCOUNT
                               DISPLAY "ACCOUNT " CARD-ACCOUNT
                                   " NOT ON FILE"
                               ELSE
                               PERFORM SHOW-ACCOUNT
                               END-IF
                               MOVE 1 TO RX-FLAG-3
                               END-IF
                       END-READ
                   END-PERFORM
                   CLOSE ACCOUNTS
               END-IF
           END-IF.
       OVERDRAWN-PHASE.
           MOVE 0 TO OVERDRAWN-TOTAL ACCOUNT-COUNT
           PERFORM OPEN-ACCOUNTS
           IF NO-MORE
               CONTINUE
           ELSE
               MOVE 0 TO RX-FLAG-4
               PERFORM UNTIL RX-FLAG-4 = 1
                   PERFORM READ-ACCOUNT
                   IF NO-MORE
                       DISPLAY "OVERDRAWN " ACCOUNT-COUNT " FOR "
                           OVERDRAWN-TOTAL
                       MOVE 1 TO RX-FLAG-4
                   ELSE
                       IF NOT (OVERDRAWN)
                           CONTINUE
                       ELSE
                           ADD 1 TO ACCOUNT-COUNT
                           ADD ACCOUNT-BALANCE TO OVERDRAWN-TOTAL
                               ON SIZE ERROR
                               DISPLAY "TOTAL TOO LARGE"
                               MOVE 1 TO RX-FLAG-4
                               NOT ON SIZE ERROR
                               PERFORM SHOW-ACCOUNT
                           END-ADD
                       END-IF
                   END-IF
               END-PERFORM
               CLOSE ACCOUNTS
           END-IF.
       OPEN-ACCOUNTS.
           MOVE 0 TO END-OF-ACCOUNTS
           OPEN INPUT ACCOUNTS
           IF ACCOUNT-STATUS = "00"
               CONTINUE
           ELSE
               DISPLAY "ACCOUNTS: STATUS " ACCOUNT-STATUS
               MOVE 1 TO END-OF-ACCOUNTS
           END-IF.
       READ-ACCOUNT.
           READ ACCOUNTS
               AT END
                   MOVE 1 TO END-OF-ACCOUNTS
           END-READ.
       SHOW-ACCOUNT.
           DISPLAY ACCOUNT-NUMBER " " ACCOUNT-HOLDER " " ACCOUNT-SIGN
               ACCOUNT-BALANCE.
