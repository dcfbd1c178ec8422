       IDENTIFICATION DIVISION.
       PROGRAM-ID. REQUESTS.
      *===============================================================
      * READS REQUEST CARDS AND DOES WHAT THEY ASK, PHASE BY PHASE.
      *   1 COUNTS THE ACCOUNTS    2 LISTS ONE ACCOUNT
      *   3 LISTS ALL OVERDRAWN    4 STOPS
      * EACH PHASE IS PERFORMED THRU ITS EXIT.
      *===============================================================
       ENVIRONMENT DIVISION.
       INPUT-OUTPUT SECTION.
       FILE-CONTROL.
           SELECT CARDS ASSIGN TO "REQUESTS.DAT".
           SELECT ACCOUNTS ASSIGN TO "ACCOUNTS.DAT"
               STATUS IS ACCOUNT-STATUS.
       DATA DIVISION.
       FILE SECTION.
       FD  CARDS.
       01  CARD.
           05  CARD-CODE           PIC 9.
           05  CARD-ACCOUNT        PIC 9(4).
           05  FILLER              PIC X(5).
       FD  ACCOUNTS.
       01  ACCOUNT.
           05  ACCOUNT-NUMBER      PIC 9(4).
           05  ACCOUNT-HOLDER      PIC X(12).
           05  ACCOUNT-SIGN        PIC X.
               88  OVERDRAWN       VALUE "D".
           05  ACCOUNT-BALANCE     PIC 9(6).
       WORKING-STORAGE SECTION.
       77  ACCOUNT-STATUS          PIC XX.
       77  CARD-COUNT              PIC 9(3) VALUE 0.
       77  ACCOUNT-COUNT           PIC 9(4).
       77  OVERDRAWN-TOTAL         PIC 9(7).
       01  FILLER.
           05  END-OF-ACCOUNTS     PIC 9.
               88  NO-MORE         VALUE 1.
       PROCEDURE DIVISION.
       START-UP.
           OPEN INPUT CARDS.
       NEXT-CARD.
           READ CARDS AT END GO TO NO-STOP-CARD.
           ADD 1 TO CARD-COUNT.
           IF CARD-CODE NOT NUMERIC GO TO BAD-CARD.
           GO TO DO-COUNT DO-ONE DO-OVERDRAWN DO-STOP
               DEPENDING ON CARD-CODE.
       BAD-CARD.
           DISPLAY "CARD " CARD-COUNT " ISN'T A REQUEST: " CARD.
           GO TO NEXT-CARD.
       DO-COUNT.
           PERFORM COUNT-PHASE THRU COUNT-EXIT.
           GO TO NEXT-CARD.
       DO-ONE.
           PERFORM FIND-PHASE THRU FIND-EXIT.
           GO TO NEXT-CARD.
       DO-OVERDRAWN.
           PERFORM OVERDRAWN-PHASE THRU OVERDRAWN-EXIT.
           GO TO NEXT-CARD.
       NO-STOP-CARD.
           DISPLAY "NO STOP CARD".
       DO-STOP.
           CLOSE CARDS.
           DISPLAY "CARDS " CARD-COUNT.
           STOP RUN.
      *---------------------------------------------------------------
       COUNT-PHASE.
           MOVE 0 TO ACCOUNT-COUNT.
           PERFORM OPEN-ACCOUNTS THRU OPEN-EXIT.
           IF NO-MORE GO TO COUNT-EXIT.
       COUNT-LOOP.
           READ ACCOUNTS AT END GO TO COUNT-END.
           ADD 1 TO ACCOUNT-COUNT.
           GO TO COUNT-LOOP.
       COUNT-END.
           CLOSE ACCOUNTS.
           DISPLAY "ACCOUNTS " ACCOUNT-COUNT.
       COUNT-EXIT.
           EXIT.
      *---------------------------------------------------------------
       FIND-PHASE.
           IF CARD-ACCOUNT NOT NUMERIC
               DISPLAY "NO ACCOUNT NUMBER ON CARD " CARD-COUNT
               GO TO FIND-EXIT.
           PERFORM OPEN-ACCOUNTS THRU OPEN-EXIT.
           IF NO-MORE GO TO FIND-EXIT.
       FIND-LOOP.
           READ ACCOUNTS AT END
               DISPLAY "ACCOUNT " CARD-ACCOUNT " NOT FOUND"
               GO TO FIND-CLOSE.
           IF ACCOUNT-NUMBER < CARD-ACCOUNT GO TO FIND-LOOP.
           IF ACCOUNT-NUMBER > CARD-ACCOUNT
               DISPLAY "ACCOUNT " CARD-ACCOUNT " NOT ON FILE"
           ELSE
               PERFORM SHOW-ACCOUNT.
       FIND-CLOSE.
           CLOSE ACCOUNTS.
       FIND-EXIT.
           EXIT.
      *---------------------------------------------------------------
       OVERDRAWN-PHASE.
           MOVE 0 TO OVERDRAWN-TOTAL ACCOUNT-COUNT.
           PERFORM OPEN-ACCOUNTS THRU OPEN-EXIT.
           IF NO-MORE GO TO OVERDRAWN-EXIT.
       OVERDRAWN-LOOP.
           PERFORM READ-ACCOUNT.
           IF NO-MORE GO TO OVERDRAWN-SUM.
           IF NOT OVERDRAWN GO TO OVERDRAWN-LOOP.
           ADD 1 TO ACCOUNT-COUNT.
           ADD ACCOUNT-BALANCE TO OVERDRAWN-TOTAL
               ON SIZE ERROR DISPLAY "TOTAL TOO LARGE"
                   GO TO OVERDRAWN-CLOSE.
           PERFORM SHOW-ACCOUNT.
           GO TO OVERDRAWN-LOOP.
       OVERDRAWN-SUM.
           DISPLAY "OVERDRAWN " ACCOUNT-COUNT " FOR " OVERDRAWN-TOTAL.
       OVERDRAWN-CLOSE.
           CLOSE ACCOUNTS.
       OVERDRAWN-EXIT.
           EXIT.
      *---------------------------------------------------------------
       OPEN-ACCOUNTS.
           MOVE 0 TO END-OF-ACCOUNTS.
           OPEN INPUT ACCOUNTS.
           IF ACCOUNT-STATUS = "00" GO TO OPEN-EXIT.
           DISPLAY "ACCOUNTS: STATUS " ACCOUNT-STATUS.
           MOVE 1 TO END-OF-ACCOUNTS.
       OPEN-EXIT.
           EXIT.
       READ-ACCOUNT.
           READ ACCOUNTS AT END MOVE 1 TO END-OF-ACCOUNTS.
       SHOW-ACCOUNT.
           DISPLAY ACCOUNT-NUMBER " " ACCOUNT-HOLDER " " ACCOUNT-SIGN
               ACCOUNT-BALANCE.
