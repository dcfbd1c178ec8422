       IDENTIFICATION DIVISION.
       PROGRAM-ID. SALEREG.
       ENVIRONMENT DIVISION.
       INPUT-OUTPUT SECTION.
       FILE-CONTROL.
           SELECT SALES-FILE ASSIGN TO "SALES.DAT".
           SELECT PRINT-FILE ASSIGN TO "REGISTER.OUT".
       DATA DIVISION.
       FILE SECTION.
       FD SALES-FILE.
       01 SALE-RECORD.
           05 SALE-REGION PIC X(3).
           05 SALE-MAN PIC X(4).
           05 SALE-CUSTOMER PIC X(14).
           05 SALE-AMOUNT PIC 9(6)V9(2).
       FD PRINT-FILE.
       01 PRINT-LINE PIC X(60).
       WORKING-STORAGE SECTION.
       77 LINE-COUNT PIC 9(2) VALUE 0.
       77 PAGE-COUNT PIC 9(3) VALUE 0.
       77 BAD-COUNT PIC 9(4) VALUE 0.
       01 SWITCHES.
           05 END-SWITCH PIC X VALUE "N".
           88 END-OF-SALES VALUE "Y".
       01 HELD-KEYS.
           05 HELD-REGION PIC X(3).
           05 HELD-MAN PIC X(4).
       01 TOTALS.
           05 MAN-TOTAL PIC 9(6)V9(2) VALUE 0.
           05 REGION-TOTAL PIC 9(6)V9(2) VALUE 0.
           05 COMPANY-TOTAL PIC 9(6)V9(2) VALUE 0.
       01 AMOUNT-WORK PIC 9(6)V9(2).
       01 AMOUNT-PARTS REDEFINES AMOUNT-WORK.
           05 AMOUNT-POUNDS PIC 9(6).
           05 AMOUNT-PENCE PIC 9(2).
       01 HEADING-LINE.
           05 FILLER PIC X(16) VALUE "SALES REGISTER".
           05 FILLER PIC X(5) VALUE "PAGE".
           05 HEADING-PAGE PIC 9(3).
       01 DETAIL-LINE.
           05 DETAIL-REGION PIC X(5).
           05 DETAIL-MAN PIC X(6).
           05 DETAIL-CUSTOMER PIC X(16).
           05 DETAIL-POUNDS PIC 9(6).
           05 FILLER PIC X VALUE ".".
           05 DETAIL-PENCE PIC 9(2).
           05 DETAIL-NOTE PIC X(12).
       01 RX-FLAG-1 PIC 9 VALUE 0.
       PROCEDURE DIVISION.
       0000-START.
           OPEN INPUT SALES-FILE OUTPUT PRINT-FILE
           PERFORM 9000-READ
           IF END-OF-SALES
               DISPLAY "NO SALES TODAY"
           ELSE
               MOVE SALE-REGION TO HELD-REGION
               MOVE SALE-MAN TO HELD-MAN
               PERFORM 8000-HEADINGS
               PERFORM UNTIL END-OF-SALES
                   IF SALE-REGION NOT = HELD-REGION
                       PERFORM 2000-MAN-TOTAL
                       PERFORM 3000-REGION-TOTAL
                   ELSE
                       IF SALE-MAN NOT = HELD-MAN
                           PERFORM 2000-MAN-TOTAL
                       END-IF
                   END-IF
                   PERFORM 1000-DETAIL
                   PERFORM 9000-READ
               END-PERFORM
               PERFORM 2000-MAN-TOTAL
               PERFORM 3000-REGION-TOTAL
               MOVE SPACE TO DETAIL-REGION DETAIL-MAN DETAIL-NOTE
               MOVE "COMPANY TOTAL" TO DETAIL-CUSTOMER
               MOVE COMPANY-TOTAL TO AMOUNT-WORK
               PERFORM 7000-PRINT
               DISPLAY "PAGES " PAGE-COUNT ", WITHOUT AMOUNT " BAD-COUNT
           END-IF
           CLOSE SALES-FILE PRINT-FILE
           STOP RUN.
       1000-DETAIL.
           MOVE SALE-REGION TO DETAIL-REGION
           MOVE SALE-MAN TO DETAIL-MAN
           MOVE SALE-CUSTOMER TO DETAIL-CUSTOMER
           IF SALE-AMOUNT NOT NUMERIC
               ADD 1 TO BAD-COUNT
               MOVE 0 TO AMOUNT-WORK
               MOVE "  NO AMOUNT" TO DETAIL-NOTE
               PERFORM 7000-PRINT
           ELSE
               MOVE SPACE TO DETAIL-NOTE
               MOVE SALE-AMOUNT TO AMOUNT-WORK
               ADD SALE-AMOUNT TO MAN-TOTAL
               PERFORM 7000-PRINT
           END-IF.
       2000-MAN-TOTAL.
           MOVE SPACE TO DETAIL-REGION DETAIL-NOTE
           MOVE HELD-MAN TO DETAIL-MAN
           MOVE "TOTAL" TO DETAIL-CUSTOMER
           MOVE MAN-TOTAL TO AMOUNT-WORK
           PERFORM 7000-PRINT
           ADD MAN-TOTAL TO REGION-TOTAL
           MOVE 0 TO MAN-TOTAL
           IF NOT (END-OF-SALES)
               MOVE SALE-MAN TO HELD-MAN
           END-IF.
       3000-REGION-TOTAL.
           MOVE SPACE TO DETAIL-MAN DETAIL-NOTE
           MOVE HELD-REGION TO DETAIL-REGION
           MOVE "REGION TOTAL" TO DETAIL-CUSTOMER
           MOVE REGION-TOTAL TO AMOUNT-WORK
           PERFORM 7000-PRINT
           ADD REGION-TOTAL TO COMPANY-TOTAL
           MOVE 0 TO REGION-TOTAL
           IF END-OF-SALES
               CONTINUE
           ELSE
               MOVE SALE-REGION TO HELD-REGION
               MOVE 99 TO LINE-COUNT
           END-IF.
       7000-PRINT.
           IF LINE-COUNT > 12
               PERFORM 8000-HEADINGS
           END-IF
           MOVE AMOUNT-POUNDS TO DETAIL-POUNDS
           MOVE AMOUNT-PENCE TO DETAIL-PENCE
           MOVE DETAIL-LINE TO PRINT-LINE
           WRITE PRINT-LINE
           ADD 1 TO LINE-COUNT.
       8000-HEADINGS.
           ADD 1 TO PAGE-COUNT
           MOVE PAGE-COUNT TO HEADING-PAGE
           MOVE HEADING-LINE TO PRINT-LINE
           WRITE PRINT-LINE
           MOVE SPACE TO PRINT-LINE
           WRITE PRINT-LINE
           MOVE 2 TO LINE-COUNT.
       9000-READ.
           MOVE 0 TO RX-FLAG-1
           PERFORM UNTIL RX-FLAG-1 = 1
               READ SALES-FILE
                   AT END
                       MOVE "Y" TO END-SWITCH
                       MOVE 1 TO RX-FLAG-1
                   NOT AT END
                       IF SALE-RECORD = SPACE
                           CONTINUE
                       ELSE
                           MOVE 1 TO RX-FLAG-1
                       END-IF
               END-READ
           END-PERFORM.
