       IDENTIFICATION DIVISION.
       PROGRAM-ID. GASBILL.
       ENVIRONMENT DIVISION.
       INPUT-OUTPUT SECTION.
       FILE-CONTROL.
           SELECT CONSUMERS ASSIGN TO "CONSUMER.DAT" FILE STATUS IS
               CONSUMER-STATUS.
           SELECT READINGS ASSIGN TO "READINGS.DAT" FILE STATUS IS
               READING-STATUS.
           SELECT NEXT-QUARTER ASSIGN TO "NEWCONS.OUT".
           SELECT BILLS ASSIGN TO "BILLS.OUT".
       DATA DIVISION.
       FILE SECTION.
       FD CONSUMERS.
       01 CONSUMER.
           03 CON-ACCOUNT PIC 9(6).
           03 CON-NAME PIC X(15).
           03 CON-TARIFF PIC 9.
           03 CON-LAST-READING PIC 9(5).
           03 CON-USUAL PIC 9(5).
           03 CON-ESTIMATES PIC 9.
           03 CON-BALANCE PIC S9(5)V9(2) PACKED-DECIMAL.
           03 CON-BOX-MONEY PIC S9(3)V9(2) PACKED-DECIMAL.
       FD READINGS.
       01 RDG.
           03 RDG-ACCOUNT PIC 9(6).
           03 RDG-KIND PIC X.
           88 RDG-BY-READER VALUE "R".
           88 RDG-BY-CARD VALUE "C".
           88 RDG-NO-ACCESS VALUE "N".
           03 RDG-FIGURE PIC 9(5).
       FD NEXT-QUARTER.
       01 NEXT-CONSUMER PIC X(40).
       FD BILLS.
       01 BILL-LINE PIC X(52).
       WORKING-STORAGE SECTION.
       77 CONSUMER-STATUS PIC X(2).
       77 READING-STATUS PIC X(2).
       77 CON-KEY PIC 9(6) BINARY VALUE 0.
       77 RDG-KEY PIC 9(6) BINARY VALUE 0.
       77 NO-MORE PIC 9(6) BINARY VALUE 999999.
       77 UNITS-USED PIC S9(6) BINARY VALUE 0.
       77 UNITS-LEFT PIC S9(6) BINARY VALUE 0.
       77 BLK PIC 9(2) BINARY VALUE 0.
       77 T PIC 9(2) BINARY VALUE 0.
       77 F PIC 9(2) BINARY VALUE 0.
       77 PAGE-LINES PIC 9(2) BINARY VALUE 99.
       77 PAGE-NUMBER PIC 9(3) BINARY VALUE 0.
       77 CHARGE PIC S9(5)V9(2) PACKED-DECIMAL VALUE 0.
       77 GAS-COST PIC S9(5)V9(4) PACKED-DECIMAL VALUE 0.
       77 VAT PIC S9(5)V9(2) PACKED-DECIMAL VALUE 0.
       01 HOW-READ PIC X VALUE "R".
           88 WAS-READ VALUE "R" "C".
           88 WAS-ESTIMATED VALUE "E".
           88 IS-IN-DOUBT VALUE "?".
       01 TARIFF-VALUES.
           03 FILLER PIC X(16) VALUE "DOMESTIC  0450 1".
           03 FILLER PIC X(16) VALUE "SHOP      0925 1".
           03 FILLER PIC X(16) VALUE "COIN BOX  0000 0".
           03 FILLER PIC X(16) VALUE "INDUSTRY  8800 1".
       01 TARIFFS REDEFINES TARIFF-VALUES.
           03 TARIFF OCCURS 4.
           05 TARIFF-NAME PIC X(10).
           05 TARIFF-STANDING PIC 9(2)V9(2).
           05 FILLER PIC X.
           05 TARIFF-TAXED PIC 9.
       01 BLK-VALUES.
           03 FILLER PIC X(33) VALUE "001000512004000431999990390      "
               .
           03 FILLER PIC X(33) VALUE "002000498010000440999990402      "
               .
           03 FILLER PIC X(33) VALUE "999990575000000000000000000      "
               .
           03 FILLER PIC X(33) VALUE "020000415100000372999990344      "
               .
       01 BLK-TABLE REDEFINES BLK-VALUES.
           03 BLK-ROW OCCURS 4.
           05 BLK-ENTRY OCCURS 3.
           07 BLK-TO PIC 9(5).
           07 BLK-PRICE PIC V9(4).
           05 FILLER PIC X(6).
       01 FAULT-VALUES.
           03 FILLER PIC X(20) VALUE "NO SUCH ACCOUNT".
           03 FILLER PIC X(20) VALUE "FIGURE IS NO NUMBER".
           03 FILLER PIC X(20) VALUE "USE FAR ABOVE USUAL".
           03 FILLER PIC X(20) VALUE "THREE ESTIMATES".
           03 FILLER PIC X(20) VALUE "NO SUCH TARIFF".
           03 FILLER PIC X(20) VALUE "SECOND READING".
       01 FAULT-TEXTS REDEFINES FAULT-VALUES.
           03 FAULT-TEXT PIC X(20) OCCURS 6.
       01 FAULT-COUNTS.
           03 FAULT-COUNT PIC 9(4) BINARY OCCURS 6 VALUE 0.
       01 TOTALS.
           03 TOTAL-ROW OCCURS 4.
           05 TOTAL-BILLS PIC 9(5) PACKED-DECIMAL.
           05 TOTAL-UNITS PIC S9(9) PACKED-DECIMAL.
           05 TOTAL-MONEY PIC S9(7)V9(2) PACKED-DECIMAL.
           03 TOTAL-VAT PIC S9(7)V9(2) PACKED-DECIMAL VALUE 0.
           03 TOTAL-ESTIMATED PIC 9(5) PACKED-DECIMAL VALUE 0.
       01 PAGE-HEAD.
           03 FILLER PIC X(28) VALUE "NORTHERN GAS   ACCOUNTS".
           03 FILLER PIC X(5) VALUE "PAGE".
           03 HEAD-PAGE PIC Z(2)9.
       01 NAME-LINE.
           03 LINE-ACCOUNT PIC 9(3)B9(3).
           03 FILLER PIC X(3) VALUE SPACE.
           03 LINE-NAME PIC X(15).
           03 LINE-TARIFF PIC X(10).
       01 UNITS-LINE.
           03 FILLER PIC X(10) VALUE SPACE.
           03 LINE-BEFORE PIC Z(4)9.
           03 FILLER PIC X(4) VALUE " TO".
           03 LINE-NOW PIC Z(4)9.
           03 LINE-HOW PIC X.
           03 LINE-UNITS PIC Z(3),Z(2)9.
           03 FILLER PIC X(6) VALUE " UNITS".
           03 LINE-GAS PIC Z(2),Z(2)9.9(2).
       01 MONEY-LINE.
           03 FILLER PIC X(10) VALUE SPACE.
           03 LINE-WHAT PIC X(22).
           03 LINE-MONEY PIC -(3),-(2)9.9(2).
       01 TOTAL-LINE.
           03 FILLER PIC X(10) VALUE SPACE.
           03 FILLER PIC X(20) VALUE "TO PAY".
           03 LINE-TOTAL PIC $(4),$(2)9.9(2)CR.
           03 LINE-REMARK PIC X(9).
       01 TARIFF-LINE.
           03 SHOW-TARIFF PIC X(10).
           03 SHOW-BILLS PIC Z(2),Z(2)9.
           03 SHOW-UNITS PIC Z(8)9.
           03 SHOW-MONEY PIC $(2),$(3),$(2)9.9(2)-.
       01 RX-STATE-1 PIC 9(6) VALUE 0.
       01 RX-STATE-2 PIC 9(6) VALUE 0.
       01 RX-FLAG-1 PIC 9 VALUE 0.
       01 RX-FLAG-2 PIC 9 VALUE 0.
       01 RX-FLAG-3 PIC 9 VALUE 0.
       PROCEDURE DIVISION.
       1000-BEGIN.
           OPEN INPUT CONSUMERS READINGS OUTPUT NEXT-QUARTER BILLS
           IF CONSUMER-STATUS NOT = "00"
               DISPLAY "no consumers: " CONSUMER-STATUS
           ELSE
               IF READING-STATUS NOT = "00"
                   DISPLAY "no readings, all are estimated: "
                       READING-STATUS
                   MOVE NO-MORE TO RDG-KEY
               END-IF
               PERFORM 1900-CLEAR VARYING T FROM 1 BY 1 UNTIL T > 4
               PERFORM 8000-NEXT-CONSUMER
               PERFORM 8100-NEXT-READING
               PERFORM UNTIL CON-KEY = NO-MORE AND RDG-KEY = NO-MORE
                   IF RDG-KEY < CON-KEY
                       MOVE 1 TO F
                       PERFORM 7000-FAULT
                       PERFORM 8100-NEXT-READING
                   ELSE
                       IF RDG-KEY > CON-KEY
                           PERFORM 3000-ESTIMATE
                       ELSE
                           PERFORM 2000-ACTUAL
                           PERFORM 8200-PASS-SECOND
                       END-IF
                       IF IS-IN-DOUBT
                           DISPLAY CON-ACCOUNT " " CON-NAME
                               " not billed"
                       ELSE
                           PERFORM 4000-BILL
                       END-IF
                       WRITE NEXT-CONSUMER FROM CONSUMER
                       PERFORM 8000-NEXT-CONSUMER
                   END-IF
               END-PERFORM
               PERFORM 9100-TARIFF VARYING T FROM 1 BY 1 UNTIL T > 4
               MOVE TOTAL-VAT TO SHOW-MONEY
               DISPLAY "value added tax         " SHOW-MONEY
               PERFORM 9200-FAULT VARYING F FROM 1 BY 1 UNTIL F > 6
               DISPLAY "estimated " TOTAL-ESTIMATED ", pages "
                   PAGE-NUMBER
           END-IF
           CLOSE CONSUMERS READINGS NEXT-QUARTER BILLS
           STOP RUN.
       1900-CLEAR.
           MOVE 0 TO TOTAL-BILLS (T) TOTAL-UNITS (T) TOTAL-MONEY (T).
       2000-ACTUAL.
           MOVE 1 TO RX-STATE-1
           PERFORM UNTIL RX-STATE-1 = 0
               EVALUATE RX-STATE-1
                   WHEN 1
                       IF RDG-NO-ACCESS
                           MOVE 3 TO RX-STATE-1
                       ELSE
                           IF RDG-FIGURE NOT NUMERIC
                               MOVE 2 TO F
                               PERFORM 7000-FAULT
                               MOVE 3 TO RX-STATE-1
                           ELSE
                               MOVE RDG-KIND TO HOW-READ
                               SUBTRACT CON-LAST-READING FROM RDG-FIGURE
                                   GIVING UNITS-USED
                               IF UNITS-USED < 0
                               ADD 100000 TO UNITS-USED
                               END-IF
                               IF UNITS-USED <= CON-USUAL * 9
                               MOVE 2 TO RX-STATE-1
                               ELSE
                               MOVE 3 TO F
                               PERFORM 7000-FAULT
                               IF RDG-BY-READER
                               MOVE 2 TO RX-STATE-1
                               ELSE
                               MOVE "?" TO HOW-READ
                               MOVE 4 TO RX-STATE-1
                               END-IF
                               END-IF
                           END-IF
                       END-IF
                   WHEN 2
                       MOVE RDG-FIGURE TO CON-LAST-READING
                       MOVE 0 TO CON-ESTIMATES
                       COMPUTE CON-USUAL ROUNDED = ((CON-USUAL * 3) +
                           UNITS-USED) / 4
                       MOVE 4 TO RX-STATE-1
                   WHEN 3
                       PERFORM 3000-ESTIMATE
                       MOVE 4 TO RX-STATE-1
                   WHEN 4
                       MOVE 0 TO RX-STATE-1
               END-EVALUATE
           END-PERFORM.
       3000-ESTIMATE.
           IF CON-ESTIMATES >= 3
               MOVE "?" TO HOW-READ
               MOVE 4 TO F
               ADD 1 TO FAULT-COUNT (F)
           ELSE
               MOVE "E" TO HOW-READ
               ADD 1 TO CON-ESTIMATES
               MOVE CON-USUAL TO UNITS-USED
               ADD UNITS-USED TO CON-LAST-READING
                   ON SIZE ERROR
                       COMPUTE CON-LAST-READING = (CON-LAST-READING +
                           UNITS-USED) - 100000
                       END-COMPUTE
               END-ADD
               ADD 1 TO TOTAL-ESTIMATED
           END-IF.
       4000-BILL.
           MOVE 1 TO RX-STATE-2
           PERFORM UNTIL RX-STATE-2 = 0
               EVALUATE RX-STATE-2
                   WHEN 1
                       MOVE 0 TO GAS-COST VAT
                       MOVE CON-TARIFF TO T
                       EVALUATE CON-TARIFF
                           WHEN 1
                               MOVE 2 TO RX-STATE-2
                           WHEN 2
                               MOVE 2 TO RX-STATE-2
                           WHEN 3
                               MULTIPLY UNITS-USED BY BLK-PRICE (3 1)
                                   GIVING GAS-COST
                               ADD GAS-COST 0 GIVING CHARGE ROUNDED
                               SUBTRACT CON-BOX-MONEY FROM CHARGE
                               MOVE 0 TO CON-BOX-MONEY
                               MOVE 3 TO RX-STATE-2
                           WHEN 4
                               MOVE 2 TO RX-STATE-2
                           WHEN OTHER
                               MOVE 5 TO F
                               PERFORM 7000-FAULT
                               MOVE 4 TO RX-STATE-2
                       END-EVALUATE
                   WHEN 2
                       MOVE UNITS-USED TO UNITS-LEFT
                       MOVE 1 TO BLK
                       PERFORM WITH TEST AFTER UNTIL NOT (UNITS-LEFT > 0
                           AND BLK < 4)
                           IF UNITS-LEFT > BLK-TO (T BLK)
                               COMPUTE GAS-COST = GAS-COST + (BLK-TO (T
                                   BLK) * BLK-PRICE (T BLK))
                               SUBTRACT BLK-TO (T BLK) FROM UNITS-LEFT
                           ELSE
                               COMPUTE GAS-COST = GAS-COST + (UNITS-LEFT
                                   * BLK-PRICE (T BLK))
                               MOVE 0 TO UNITS-LEFT
                           END-IF
                           ADD 1 TO BLK
                       END-PERFORM
                       ADD TARIFF-STANDING (T) GAS-COST GIVING CHARGE
                           ROUNDED
                       MOVE 3 TO RX-STATE-2
                   WHEN 3
                       IF TARIFF-TAXED (T) = 1
                           MULTIPLY CHARGE BY 0.08 GIVING VAT ROUNDED
                       END-IF
                       PERFORM 5000-PRINT
                       ADD CHARGE VAT TO CON-BALANCE
                           ON SIZE ERROR
                               DISPLAY CON-ACCOUNT
                                   " balance does not fit"
                       END-ADD
                       ADD 1 TO TOTAL-BILLS (T)
                       ADD UNITS-USED TO TOTAL-UNITS (T)
                       ADD CHARGE TO TOTAL-MONEY (T)
                       ADD VAT TO TOTAL-VAT
                       MOVE 4 TO RX-STATE-2
                   WHEN 4
                       MOVE 0 TO RX-STATE-2
               END-EVALUATE
           END-PERFORM.
       5000-PRINT.
           IF PAGE-LINES > 18
               PERFORM 6000-NEW-PAGE
           END-IF
           MOVE CON-ACCOUNT TO LINE-ACCOUNT
           MOVE CON-NAME TO LINE-NAME
           MOVE TARIFF-NAME (T) TO LINE-TARIFF
           WRITE BILL-LINE FROM NAME-LINE
           SUBTRACT UNITS-USED FROM CON-LAST-READING GIVING UNITS-LEFT
           IF UNITS-LEFT < 0
               ADD 100000 TO UNITS-LEFT
           END-IF
           MOVE UNITS-LEFT TO LINE-BEFORE
           MOVE CON-LAST-READING TO LINE-NOW
           MOVE SPACE TO LINE-HOW
           IF WAS-ESTIMATED
               MOVE "E" TO LINE-HOW
           END-IF
           MOVE UNITS-USED TO LINE-UNITS
           ADD GAS-COST 0 GIVING LINE-GAS ROUNDED
           WRITE BILL-LINE FROM UNITS-LINE
           IF CON-BALANCE = 0
               CONTINUE
           ELSE
               MOVE CON-BALANCE TO LINE-MONEY
               IF CON-BALANCE > 0
                   MOVE "OWED FROM BEFORE" TO LINE-WHAT
               ELSE
                   MOVE "IN YOUR FAVOUR" TO LINE-WHAT
               END-IF
               WRITE BILL-LINE FROM MONEY-LINE
               ADD 1 TO PAGE-LINES
           END-IF
           IF VAT = 0
               CONTINUE
           ELSE
               MOVE VAT TO LINE-MONEY
               MOVE "VALUE ADDED TAX" TO LINE-WHAT
               WRITE BILL-LINE FROM MONEY-LINE
               ADD 1 TO PAGE-LINES
           END-IF
           COMPUTE LINE-TOTAL = (CON-BALANCE + CHARGE) + VAT
           MOVE SPACE TO LINE-REMARK
           IF CON-BALANCE > 50
               MOVE "  OVERDUE" TO LINE-REMARK
           END-IF
           WRITE BILL-LINE FROM TOTAL-LINE
           ADD 3 TO PAGE-LINES.
       6000-NEW-PAGE.
           ADD 1 TO PAGE-NUMBER
           MOVE PAGE-NUMBER TO HEAD-PAGE
           WRITE BILL-LINE FROM PAGE-HEAD
           MOVE 1 TO PAGE-LINES.
       8000-NEXT-CONSUMER.
           MOVE 0 TO RX-FLAG-1
           PERFORM UNTIL RX-FLAG-1 = 1
               READ CONSUMERS
                   AT END
                       MOVE NO-MORE TO CON-KEY
                       MOVE 1 TO RX-FLAG-1
                   NOT AT END
                       IF (CON-ACCOUNT NOT NUMERIC OR CON-BALANCE NOT
                           NUMERIC) OR CON-USUAL NOT NUMERIC
                           DISPLAY "consumer left out: " CON-NAME
                       ELSE
                           MOVE CON-ACCOUNT TO CON-KEY
                           MOVE 1 TO RX-FLAG-1
                       END-IF
               END-READ
           END-PERFORM.
       8200-PASS-SECOND.
           MOVE 0 TO RX-FLAG-2
           PERFORM UNTIL RX-FLAG-2 = 1
               PERFORM 8100-NEXT-READING
               IF RDG-KEY NOT = CON-KEY
                   MOVE 1 TO RX-FLAG-2
               ELSE
                   MOVE 6 TO F
                   PERFORM 7000-FAULT
               END-IF
           END-PERFORM.
       8100-NEXT-READING.
           MOVE 0 TO RX-FLAG-3
           PERFORM UNTIL RX-FLAG-3 = 1
               IF RDG-KEY = NO-MORE
                   MOVE 1 TO RX-FLAG-3
               ELSE
                   READ READINGS
                       AT END
                           MOVE NO-MORE TO RDG-KEY
                           MOVE 1 TO RX-FLAG-3
                       NOT AT END
                           IF RDG-ACCOUNT NOT NUMERIC
                               MOVE 1 TO F
                               PERFORM 7000-FAULT
                           ELSE
                               MOVE RDG-ACCOUNT TO RDG-KEY
                               MOVE 1 TO RX-FLAG-3
                           END-IF
                   END-READ
               END-IF
           END-PERFORM.
       7000-FAULT.
           ADD 1 TO FAULT-COUNT (F)
           DISPLAY "reading " RDG " " FAULT-TEXT (F).
       9100-TARIFF.
           MOVE TARIFF-NAME (T) TO SHOW-TARIFF
           MOVE TOTAL-BILLS (T) TO SHOW-BILLS
           MOVE TOTAL-UNITS (T) TO SHOW-UNITS
           MOVE TOTAL-MONEY (T) TO SHOW-MONEY
           DISPLAY TARIFF-LINE.
       9200-FAULT.
           IF FAULT-COUNT (F) > 0
               DISPLAY FAULT-TEXT (F) FAULT-COUNT (F)
           END-IF.
