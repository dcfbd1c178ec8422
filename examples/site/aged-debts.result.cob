       IDENTIFICATION DIVISION.
       PROGRAM-ID. AGED-DEBTS.
       ENVIRONMENT DIVISION.
       INPUT-OUTPUT SECTION.
       FILE-CONTROL.
           SELECT INVOICES ASSIGN TO "INVOICES.DAT".
       DATA DIVISION.
       FILE SECTION.
       FD INVOICES.
       01 INVOICE.
           05 CUSTOMER PIC X(10).
           05 DUE-MONTH PIC 9(4).
           05 AMOUNT PIC 9(5).
           05 KIND PIC X.
           88 CREDIT-NOTE VALUE "C".
       WORKING-STORAGE SECTION.
       01 THIS-MONTH PIC 9(4) VALUE 0.
       01 AGE-IN-MONTHS PIC S9(4).
       01 AGES.
           05 AGE-TOTAL PIC S9(6) OCCURS 4.
       01 GRAND.
           05 GRAND-TOTAL PIC S9(7) OCCURS 4.
       01 BUCKET PIC 9.
       01 SHOWN PIC 9(7).
       01 SIGN-MARK PIC X.
       01 HELD-CUSTOMER PIC X(10).
       01 REMINDER PIC X(50) VALUE
           "PLEASE PAY WHAT IS OVERDUE WITHIN A WEEK".
       01 RX-FLAG-1 PIC 9 VALUE 0.
       PROCEDURE DIVISION.
       MAIN-LINE.
           MOVE 1205 TO THIS-MONTH
           OPEN INPUT INVOICES
           PERFORM CLEAR-GRAND
           PERFORM NEXT-INVOICE
           IF CUSTOMER = HIGH-VALUE
               DISPLAY "NOTHING IS OWED"
           ELSE
               PERFORM WITH TEST AFTER UNTIL NOT (CUSTOMER NOT =
                   HIGH-VALUE)
                   PERFORM CLEAR-AGES
                   PERFORM WITH TEST AFTER UNTIL NOT (CUSTOMER =
                       HELD-CUSTOMER)
                       PERFORM ADD-INVOICE
                       MOVE CUSTOMER TO HELD-CUSTOMER
                       PERFORM NEXT-INVOICE
                   END-PERFORM
                   PERFORM SHOW-CUSTOMER
               END-PERFORM
               DISPLAY "ALL CUSTOMERS"
               PERFORM VARYING BUCKET FROM 1 BY 1 UNTIL BUCKET > 4
                   IF GRAND-TOTAL (BUCKET) NEGATIVE
                       MOVE "-" TO SIGN-MARK
                   ELSE
                       MOVE " " TO SIGN-MARK
                   END-IF
                   MOVE GRAND-TOTAL (BUCKET) TO SHOWN
                   DISPLAY "  " BUCKET " " SHOWN SIGN-MARK
               END-PERFORM
           END-IF
           CLOSE INVOICES
           STOP RUN.
       NEXT-INVOICE.
           MOVE 0 TO RX-FLAG-1
           PERFORM UNTIL RX-FLAG-1 = 1
               READ INVOICES
                   AT END
                       MOVE HIGH-VALUE TO CUSTOMER
                       MOVE 1 TO RX-FLAG-1
                   NOT AT END
                       IF AMOUNT NOT NUMERIC
                           DISPLAY "NO AMOUNT: " INVOICE
                       ELSE
                           IF AMOUNT = 0
                               CONTINUE
                           ELSE
                               MOVE 1 TO RX-FLAG-1
                           END-IF
                       END-IF
               END-READ
           END-PERFORM.
       ADD-INVOICE.
           IF CREDIT-NOTE
               SUBTRACT AMOUNT FROM AGE-TOTAL (1)
           ELSE
               SUBTRACT DUE-MONTH FROM THIS-MONTH GIVING AGE-IN-MONTHS
               IF AGE-IN-MONTHS < 0
                   MOVE 0 TO AGE-IN-MONTHS
               END-IF
               EVALUATE AGE-IN-MONTHS
                   WHEN 0
                       MOVE 1 TO BUCKET
                   WHEN 1
                       MOVE 2 TO BUCKET
                   WHEN 2 THRU 5
                       MOVE 3 TO BUCKET
                   WHEN OTHER
                       MOVE 4 TO BUCKET
               END-EVALUATE
               ADD AMOUNT TO AGE-TOTAL (BUCKET)
           END-IF.
       SHOW-CUSTOMER.
           DISPLAY HELD-CUSTOMER
           PERFORM VARYING BUCKET FROM 1 BY 1 UNTIL BUCKET > 4
               ADD AGE-TOTAL (BUCKET) TO GRAND-TOTAL (BUCKET)
               IF AGE-TOTAL (BUCKET) NOT = 0
                   MOVE AGE-TOTAL (BUCKET) TO SHOWN
                   IF AGE-TOTAL (BUCKET) < 0
                       DISPLAY "  " BUCKET " " SHOWN " IN CREDIT"
                   ELSE
                       DISPLAY "  " BUCKET " " SHOWN
                   END-IF
               END-IF
           END-PERFORM
           IF AGE-TOTAL (3) + AGE-TOTAL (4) > 500
               DISPLAY "  " REMINDER
           END-IF
           IF AGE-TOTAL (4) <= 0
               CONTINUE
           ELSE
               DISPLAY "  TO THE SOLICITOR"
           END-IF.
       CLEAR-AGES.
           MOVE 0 TO AGE-TOTAL (1) AGE-TOTAL (2) AGE-TOTAL (3)
           MOVE 0 TO AGE-TOTAL (4).
       CLEAR-GRAND.
           MOVE 0 TO GRAND-TOTAL (1) GRAND-TOTAL (2) GRAND-TOTAL (3)
           MOVE 0 TO GRAND-TOTAL (4).
