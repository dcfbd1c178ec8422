       IDENTIFICATION DIVISION.
       PROGRAM-ID. CHEQRUN.
       ENVIRONMENT DIVISION.
       INPUT-OUTPUT SECTION.
       FILE-CONTROL.
           SELECT PAYABLES ASSIGN TO "PAYABLES.DAT".
           SELECT REMITTANCES ASSIGN TO "REMIT.OUT".
           SELECT CHEQUES ASSIGN TO "CHEQUES.OUT".
       DATA DIVISION.
       FILE SECTION.
       FD PAYABLES.
       01 PAYABLE.
           05 PAY-SUPPLIER PIC X(5).
           05 PAY-NAME PIC X(15).
           05 PAY-DATE PIC 9(6).
           05 PAY-REF PIC X(6).
           05 PAY-KIND PIC X.
           88 IS-INVOICE VALUE "I".
           88 IS-CREDIT-NOTE VALUE "C".
           05 PAY-AMOUNT PIC 9(5)V9(2).
       FD REMITTANCES.
       01 REMIT-LINE PIC X(52).
       FD CHEQUES.
       01 CHEQUE.
           05 CHEQUE-NUMBER PIC 9(6)B.
           05 CHEQUE-DATE PIC 9(2)/9(2)/9(2)B.
           05 CHEQUE-PAYEE PIC X(15).
           05 CHEQUE-AMOUNT PIC $*(3),*(2)9.9(2).
           05 CHEQUE-NOTE PIC X(10).
       WORKING-STORAGE SECTION.
       77 RUN-DATE PIC 9(6) VALUE 280284.
       77 NEXT-CHEQUE PIC 9(6) VALUE 41200.
       77 PAGE-COUNT PIC 9(3) VALUE 0.
       77 LINE-COUNT PIC 9(2) VALUE 0.
       77 CHEQUE-LIMIT PIC 9(5) VALUE 5000.
       01 SWITCHES.
           05 END-SWITCH PIC X VALUE "N".
           88 NO-MORE VALUE "Y".
       01 HELD-SUPPLIER PIC X(5).
       01 HELD-NAME PIC X(15).
       01 SUMS.
           05 BALANCE-OWED PIC S9(6)V9(2) VALUE 0.
           05 DISCOUNT PIC S9(5)V9(2) VALUE 0.
           05 PAID-TODAY PIC S9(7)V9(2) VALUE 0.
           05 CARRIED PIC S9(7)V9(2) VALUE 0.
       01 HEADING-LINE.
           05 FILLER PIC X(18) VALUE "REMITTANCE ADVICE".
           05 HEADING-DATE PIC 9(2)/9(2)/9(2).
           05 FILLER PIC X(6) VALUE " PAGE".
           05 HEADING-PAGE PIC Z(2)9.
           05 FILLER PIC X(2) VALUE SPACE.
           05 HEADING-NAME PIC X(15).
       01 DETAIL-LINE.
           05 DETAIL-REF PIC X(7).
           05 DETAIL-DATE PIC 9(2)/9(2)/9(2).
           05 FILLER PIC X(2) VALUE SPACE.
           05 DETAIL-AMOUNT PIC Z(2),Z(2)9.9(2)CR.
           05 FILLER PIC X(2) VALUE SPACE.
           05 DETAIL-BALANCE PIC -(4),-(2)9.9(2).
           05 DETAIL-NOTE PIC X(11).
       01 TOTAL-LINE.
           05 TOTAL-TEXT PIC X(17).
           05 TOTAL-AMOUNT PIC $(3),$(2)9.9(2)BCR.
           05 FILLER PIC X(4) VALUE SPACE.
           05 TOTAL-RATE PIC +9.9.
           05 FILLER PIC X VALUE "%".
       01 SUMMARY-LINE.
           05 SUMMARY-PAID PIC $(2),$(3),$(2)9.9(2).
           05 FILLER PIC X(10) VALUE " IN ABOUT ".
           05 SUMMARY-HUNDREDS PIC Z,Z(2)9,90(2).
       01 RX-FLAG-1 PIC 9 VALUE 0.
       01 RX-STATE-1 PIC 9(6) VALUE 0.
       01 RX-FLAG-2 PIC 9 VALUE 0.
       PROCEDURE DIVISION.
       0000-START.
           OPEN INPUT PAYABLES OUTPUT REMITTANCES CHEQUES
           MOVE RUN-DATE TO HEADING-DATE CHEQUE-DATE
           PERFORM 9000-READ
           IF NO-MORE
               CONTINUE
           ELSE
               PERFORM WITH TEST AFTER UNTIL NOT (NOT (NO-MORE))
                   MOVE PAY-SUPPLIER TO HELD-SUPPLIER
                   MOVE PAY-NAME TO HELD-NAME
                   MOVE ZERO TO BALANCE-OWED
                   PERFORM 8000-HEADINGS
                   MOVE 0 TO RX-FLAG-1
                   PERFORM UNTIL RX-FLAG-1 = 1
                       PERFORM 1000-ITEM
                       PERFORM 9000-READ
                       IF NO-MORE
                           MOVE 1 TO RX-FLAG-1
                       ELSE
                           IF PAY-SUPPLIER = HELD-SUPPLIER
                               CONTINUE
                           ELSE
                               MOVE 1 TO RX-FLAG-1
                           END-IF
                       END-IF
                   END-PERFORM
                   PERFORM 2000-SETTLE
               END-PERFORM
           END-IF
           MOVE PAID-TODAY TO SUMMARY-PAID
           DIVIDE 100 INTO PAID-TODAY GIVING SUMMARY-HUNDREDS ROUNDED
           DISPLAY SUMMARY-LINE
           MOVE CARRIED TO SUMMARY-PAID
           IF SUMMARY-PAID = "        $0.00"
               DISPLAY "NOTHING CARRIED"
           ELSE
               DISPLAY SUMMARY-PAID " CARRIED"
           END-IF
           CLOSE PAYABLES REMITTANCES CHEQUES
           STOP RUN.
       1000-ITEM.
           MOVE 1 TO RX-STATE-1
           PERFORM UNTIL RX-STATE-1 = 0
               EVALUATE RX-STATE-1
                   WHEN 1
                       MOVE PAY-REF TO DETAIL-REF
                       MOVE PAY-DATE TO DETAIL-DATE
                       MOVE SPACE TO DETAIL-NOTE
                       IF PAY-AMOUNT NOT NUMERIC
                           MOVE 2 TO RX-STATE-1
                       ELSE
                           IF IS-CREDIT-NOTE
                               SUBTRACT PAY-AMOUNT FROM ZERO GIVING
                                   DETAIL-AMOUNT
                               SUBTRACT PAY-AMOUNT FROM BALANCE-OWED
                               MOVE 3 TO RX-STATE-1
                           ELSE
                               IF NOT (IS-INVOICE)
                               MOVE 2 TO RX-STATE-1
                               ELSE
                               MOVE PAY-AMOUNT TO DETAIL-AMOUNT
                               ADD PAY-AMOUNT TO BALANCE-OWED
                               MOVE 3 TO RX-STATE-1
                               END-IF
                           END-IF
                       END-IF
                   WHEN 2
                       MOVE SPACE TO DETAIL-LINE
                       MOVE PAY-REF TO DETAIL-REF
                       MOVE "  QUERY" TO DETAIL-NOTE
                       MOVE 3 TO RX-STATE-1
                   WHEN 3
                       IF LINE-COUNT > 5
                           PERFORM 8000-HEADINGS
                       END-IF
                       MOVE BALANCE-OWED TO DETAIL-BALANCE
                       WRITE REMIT-LINE FROM DETAIL-LINE
                       ADD 1 TO LINE-COUNT
                       MOVE 0 TO RX-STATE-1
               END-EVALUATE
           END-PERFORM.
       2000-SETTLE.
           IF BALANCE-OWED <= ZERO
               MOVE "CARRIED FORWARD" TO TOTAL-TEXT
               MOVE BALANCE-OWED TO TOTAL-AMOUNT
               MOVE ZERO TO TOTAL-RATE
               WRITE REMIT-LINE FROM TOTAL-LINE
               SUBTRACT BALANCE-OWED FROM CARRIED
           ELSE
               MOVE ZERO TO DISCOUNT TOTAL-RATE
               IF BALANCE-OWED < 100
                   CONTINUE
               ELSE
                   MULTIPLY BALANCE-OWED BY 0.025 GIVING DISCOUNT
                       ROUNDED
                   MOVE -2.5 TO TOTAL-RATE
               END-IF
               MOVE "TO PAY" TO TOTAL-TEXT
               SUBTRACT DISCOUNT FROM BALANCE-OWED GIVING BALANCE-OWED
                   TOTAL-AMOUNT
               WRITE REMIT-LINE FROM TOTAL-LINE
               ADD BALANCE-OWED TO PAID-TODAY
               MOVE SPACE TO CHEQUE-NOTE
               IF BALANCE-OWED > CHEQUE-LIMIT
                   MOVE "  TWO SIGN" TO CHEQUE-NOTE
               END-IF
               MOVE NEXT-CHEQUE TO CHEQUE-NUMBER
               MOVE HELD-NAME TO CHEQUE-PAYEE
               MOVE BALANCE-OWED TO CHEQUE-AMOUNT
               WRITE CHEQUE
               ADD 1 TO NEXT-CHEQUE
           END-IF.
       8000-HEADINGS.
           ADD 1 TO PAGE-COUNT
           MOVE PAGE-COUNT TO HEADING-PAGE
           MOVE HELD-NAME TO HEADING-NAME
           WRITE REMIT-LINE FROM HEADING-LINE
           MOVE 0 TO LINE-COUNT.
       9000-READ.
           MOVE 0 TO RX-FLAG-2
           PERFORM UNTIL RX-FLAG-2 = 1
               READ PAYABLES
                   AT END
                       MOVE "Y" TO END-SWITCH
                       MOVE 1 TO RX-FLAG-2
                   NOT AT END
                       IF PAYABLE = SPACE
                           CONTINUE
                       ELSE
                           MOVE 1 TO RX-FLAG-2
                       END-IF
               END-READ
           END-PERFORM.
