       IDENTIFICATION DIVISION.
       PROGRAM-ID. ORDENT.
       ENVIRONMENT DIVISION.
       INPUT-OUTPUT SECTION.
       FILE-CONTROL.
           SELECT ORDER-FILE ASSIGN TO "ORDERS.DAT".
           SELECT STOCK-FILE ASSIGN TO "PARTS.DAT" FILE STATUS IS
               STOCK-STATUS.
           SELECT STOCK-OUT ASSIGN TO "NEWPARTS.OUT".
           SELECT BACK-ORDERS ASSIGN TO "BACKORD.OUT".
           SELECT DESPATCH ASSIGN TO "DESPATCH.OUT".
       DATA DIVISION.
       FILE SECTION.
       FD ORDER-FILE.
       01 ORDER-HEAD.
           05 HEAD-KIND PIC X.
           88 IS-HEAD VALUE "H".
           88 IS-LINE VALUE "L".
           88 IS-TRAILER VALUE "T".
           05 HEAD-ORDER PIC 9(5).
           05 HEAD-CUSTOMER PIC X(12).
           05 HEAD-DISCOUNT PIC 9(2).
           05 HEAD-CREDIT PIC 9(5).
       01 ORDER-LINE.
           05 FILLER PIC X.
           05 LINE-PART PIC X(6).
           05 LINE-QUANTITY PIC 9(4).
           05 FILLER PIC X(14).
       01 ORDER-TRAILER.
           05 FILLER PIC X.
           05 TRAILER-LINES PIC 9(3).
           05 TRAILER-QUANTITY PIC 9(6).
           05 FILLER PIC X(15).
       FD STOCK-FILE.
       01 STOCK-RECORD.
           05 STOCK-PART PIC X(6).
           05 STOCK-PRICE PIC 9(5)V9(2) PACKED-DECIMAL.
           05 STOCK-ON-HAND PIC S9(7) BINARY.
           05 STOCK-ON-ORDER PIC S9(7) BINARY.
       FD STOCK-OUT.
       01 STOCK-OUT-RECORD PIC X(18).
       FD BACK-ORDERS.
       01 BACK-RECORD.
           05 BACK-ORDER PIC 9(5).
           05 BACK-PART PIC X(6).
           05 BACK-QUANTITY PIC 9(4).
       FD DESPATCH.
       01 DESPATCH-LINE PIC X(50).
       WORKING-STORAGE SECTION.
       77 STOCK-STATUS PIC X(2).
       77 ORDERS-ENDED PIC X VALUE "N".
           88 NO-MORE-ORDERS VALUE "Y".
       77 FOUND-SWITCH PIC X VALUE "N".
           88 PART-FOUND VALUE "Y".
       01 SUBSCRIPTS.
           05 PARTS-HELD PIC S9(4) BINARY VALUE 0.
           05 P PIC S9(4) BINARY VALUE 0.
           05 LOW-P PIC S9(4) BINARY VALUE 0.
           05 HIGH-P PIC S9(4) BINARY VALUE 0.
           05 L PIC S9(4) BINARY VALUE 0.
           05 LINES-HELD PIC S9(4) BINARY VALUE 0.
       01 PART-TABLE.
           05 PART-ROW OCCURS 40.
           10 PART-NUMBER PIC X(6).
           10 PART-PRICE PIC 9(5)V9(2) PACKED-DECIMAL.
           10 PART-ON-HAND PIC S9(7) BINARY.
           10 PART-ON-ORDER PIC S9(7) BINARY.
       01 HELD-ORDER.
           05 HELD-NUMBER PIC 9(5).
           05 HELD-CUSTOMER PIC X(12).
           05 HELD-DISCOUNT PIC 9(2).
           05 HELD-CREDIT PIC 9(5).
           05 HELD-LINE OCCURS 10.
           10 HELD-PART PIC S9(4) BINARY.
           10 HELD-QUANTITY PIC 9(4) BINARY.
       01 ORDER-STATE PIC 9 VALUE 0.
           88 ORDER-IS-GOOD VALUE 0.
           88 ORDER-IS-BAD VALUE 1 THRU 9.
       01 ORDER-SUMS.
           05 ORDER-VALUE PIC S9(7)V9(2) PACKED-DECIMAL VALUE 0.
           05 LINE-VALUE PIC S9(7)V9(2) PACKED-DECIMAL VALUE 0.
           05 TO-SEND PIC S9(5) PACKED-DECIMAL VALUE 0.
           05 SHORT-BY PIC S9(5) PACKED-DECIMAL VALUE 0.
       01 CONTROL-COUNTS.
           05 LINES-SEEN PIC 9(5) PACKED-DECIMAL VALUE 0.
           05 QUANTITY-SEEN PIC 9(7) PACKED-DECIMAL VALUE 0.
           05 ORDERS-TAKEN PIC 9(5) PACKED-DECIMAL VALUE 0.
           05 ORDERS-PASSED-OVER PIC 9(5) PACKED-DECIMAL VALUE 0.
           05 VALUE-TAKEN PIC S9(9)V9(2) PACKED-DECIMAL VALUE 0.
       01 REASONS.
           05 FILLER PIC X(18) VALUE "NO SUCH PART".
           05 FILLER PIC X(18) VALUE "QUANTITY".
           05 FILLER PIC X(18) VALUE "MORE THAN TEN".
           05 FILLER PIC X(18) VALUE "ABOVE THE CREDIT".
           05 FILLER PIC X(18) VALUE "NO LINES".
       01 REASON-TABLE REDEFINES REASONS.
           05 REASON PIC X(18) OCCURS 5.
       01 DESPATCH-TOP.
           05 FILLER PIC X(6) VALUE "ORDER".
           05 TOP-NUMBER PIC Z(4)9.
           05 FILLER PIC X(2) VALUE SPACE.
           05 TOP-CUSTOMER PIC X(12).
           05 FILLER PIC X(11) VALUE " DISCOUNT".
           05 TOP-DISCOUNT PIC Z9.
           05 FILLER PIC X VALUE "%".
       01 DESPATCH-DETAIL.
           05 DETAIL-PART PIC X(7).
           05 DETAIL-SENT PIC Z(2),Z(2)9.
           05 DETAIL-PRICE PIC Z(2),Z(2)9.9(2).
           05 DETAIL-VALUE PIC Z(3),Z(2)9.9(2).
           05 DETAIL-SHORT PIC Z(2),Z(3)-.
           05 DETAIL-NOTE PIC X(11).
       01 VALUE-SHOWN PIC $(2),$(3),$(2)9.9(2).
       01 RX-FLAG-1 PIC 9 VALUE 0.
       01 RX-FLAG-2 PIC 9 VALUE 0.
       01 RX-EXIT-1 PIC 9(6) VALUE 0.
       01 RX-FLAG-3 PIC 9 VALUE 0.
       01 RX-FLAG-4 PIC 9 VALUE 0.
       PROCEDURE DIVISION.
       OPEN-FILES.
           OPEN INPUT ORDER-FILE STOCK-FILE
           IF STOCK-STATUS NOT = "00"
               DISPLAY "NO STOCK, STATUS " STOCK-STATUS
           ELSE
               OPEN OUTPUT STOCK-OUT BACK-ORDERS DESPATCH
               PERFORM LOAD-STOCK
               PERFORM GET-ORDER
               MOVE 0 TO RX-FLAG-1
               PERFORM UNTIL RX-FLAG-1 = 1
                   IF NO-MORE-ORDERS
                       DISPLAY "NO TRAILER"
                       MOVE 1 TO RX-FLAG-1
                   ELSE
                       IF IS-TRAILER
                           IF TRAILER-LINES NOT NUMERIC OR
                               TRAILER-QUANTITY NOT NUMERIC
                               DISPLAY "TRAILER IS SPOILT"
                           ELSE
                               IF TRAILER-LINES = LINES-SEEN AND
                                   TRAILER-QUANTITY = QUANTITY-SEEN
                               DISPLAY "TRAILER AGREES"
                               ELSE
                               DISPLAY "TRAILER " TRAILER-LINES " "
                                   TRAILER-QUANTITY " SEEN " LINES-SEEN
                                   " " QUANTITY-SEEN
                               END-IF
                           END-IF
                           MOVE 1 TO RX-FLAG-1
                       ELSE
                           IF NOT (IS-HEAD)
                               DISPLAY "NO HEAD BEFORE " ORDER-HEAD
                               PERFORM GET-ORDER
                           ELSE
                               PERFORM TAKE-ORDER
                               IF ORDER-IS-GOOD
                               PERFORM SEND-ORDER
                               ELSE
                               ADD 1 TO ORDERS-PASSED-OVER
                               DISPLAY "ORDER " HELD-NUMBER " "
                                   HELD-CUSTOMER " " REASON (ORDER-STATE
                                   )
                               END-IF
                           END-IF
                       END-IF
                   END-IF
               END-PERFORM
               PERFORM PUT-PART VARYING P FROM 1 BY 1 UNTIL P >
                   PARTS-HELD
               MOVE VALUE-TAKEN TO VALUE-SHOWN
               DISPLAY "TAKEN " ORDERS-TAKEN " FOR " VALUE-SHOWN
                   ", PASSED OVER " ORDERS-PASSED-OVER
               CLOSE STOCK-OUT BACK-ORDERS DESPATCH STOCK-FILE
           END-IF
           CLOSE ORDER-FILE
           STOP RUN.
       PUT-PART.
           WRITE STOCK-OUT-RECORD FROM PART-ROW (P).
       LOAD-STOCK.
           MOVE 0 TO PARTS-HELD
           MOVE 0 TO RX-FLAG-2
           PERFORM UNTIL RX-FLAG-2 = 1
               MOVE 0 TO RX-EXIT-1
               PERFORM UNTIL RX-EXIT-1 > 0
                   READ STOCK-FILE
                   IF STOCK-STATUS = "10"
                       MOVE 2 TO RX-EXIT-1
                   ELSE
                       IF PARTS-HELD = 40
                           DISPLAY "TABLE IS FULL AT " STOCK-PART
                           MOVE 2 TO RX-EXIT-1
                       ELSE
                           IF PARTS-HELD > 0
                               IF STOCK-PART <= PART-NUMBER (PARTS-HELD)
                               DISPLAY "OUT OF ORDER " STOCK-PART
                               ELSE
                               MOVE 1 TO RX-EXIT-1
                               END-IF
                           ELSE
                               MOVE 1 TO RX-EXIT-1
                           END-IF
                       END-IF
                   END-IF
               END-PERFORM
               EVALUATE RX-EXIT-1
                   WHEN 1
                       ADD 1 TO PARTS-HELD
                       MOVE STOCK-RECORD TO PART-ROW (PARTS-HELD)
                   WHEN OTHER
                       MOVE 1 TO RX-FLAG-2
               END-EVALUATE
           END-PERFORM.
       TAKE-ORDER.
           MOVE 0 TO ORDER-STATE LINES-HELD ORDER-VALUE
           IF HEAD-DISCOUNT NOT NUMERIC
               MOVE ZERO TO HEAD-DISCOUNT
           END-IF
           IF HEAD-CREDIT NOT NUMERIC
               MOVE ZERO TO HEAD-CREDIT
           END-IF
           MOVE HEAD-ORDER TO HELD-NUMBER
           MOVE HEAD-CUSTOMER TO HELD-CUSTOMER
           MOVE HEAD-DISCOUNT TO HELD-DISCOUNT
           MOVE HEAD-CREDIT TO HELD-CREDIT
           MOVE 0 TO RX-FLAG-3
           PERFORM UNTIL RX-FLAG-3 = 1
               PERFORM GET-ORDER
               IF NO-MORE-ORDERS OR NOT (IS-LINE)
                   MOVE 1 TO RX-FLAG-3
               ELSE
                   ADD 1 TO LINES-SEEN
                   IF LINE-QUANTITY NOT NUMERIC OR LINE-QUANTITY = ZERO
                       MOVE 2 TO ORDER-STATE
                   ELSE
                       ADD LINE-QUANTITY TO QUANTITY-SEEN
                       PERFORM FIND-PART
                       IF NOT (PART-FOUND)
                           MOVE 1 TO ORDER-STATE
                       ELSE
                           IF LINES-HELD = 10
                               MOVE 3 TO ORDER-STATE
                           ELSE
                               ADD 1 TO LINES-HELD
                               MOVE P TO HELD-PART (LINES-HELD)
                               MOVE LINE-QUANTITY TO HELD-QUANTITY (
                                   LINES-HELD)
                               MULTIPLY PART-PRICE (P) BY LINE-QUANTITY
                                   GIVING LINE-VALUE
                               ON SIZE ERROR
                               MOVE 4 TO ORDER-STATE
                               NOT ON SIZE ERROR
                               ADD LINE-VALUE TO ORDER-VALUE
                               END-ADD
                               END-MULTIPLY
                           END-IF
                       END-IF
                   END-IF
               END-IF
           END-PERFORM
           IF ORDER-IS-BAD
               CONTINUE
           ELSE
               IF LINES-HELD = 0
                   MOVE 5 TO ORDER-STATE
               ELSE
                   COMPUTE ORDER-VALUE ROUNDED = (ORDER-VALUE * (100 -
                       HELD-DISCOUNT)) / 100
                   IF ORDER-VALUE > HELD-CREDIT
                       MOVE 4 TO ORDER-STATE
                   END-IF
               END-IF
           END-IF.
       FIND-PART.
           MOVE "N" TO FOUND-SWITCH
           MOVE 1 TO LOW-P
           MOVE PARTS-HELD TO HIGH-P
           MOVE 0 TO RX-FLAG-4
           PERFORM UNTIL RX-FLAG-4 = 1
               IF LOW-P > HIGH-P
                   MOVE 1 TO RX-FLAG-4
               ELSE
                   COMPUTE P = (LOW-P + HIGH-P) / 2
                   IF LINE-PART = PART-NUMBER (P)
                       MOVE "Y" TO FOUND-SWITCH
                       MOVE 1 TO RX-FLAG-4
                   ELSE
                       IF LINE-PART < PART-NUMBER (P)
                           SUBTRACT 1 FROM P GIVING HIGH-P
                       ELSE
                           ADD 1 P GIVING LOW-P
                       END-IF
                   END-IF
               END-IF
           END-PERFORM.
       SEND-ORDER.
           MOVE HELD-NUMBER TO TOP-NUMBER
           MOVE HELD-CUSTOMER TO TOP-CUSTOMER
           MOVE HELD-DISCOUNT TO TOP-DISCOUNT
           WRITE DESPATCH-LINE FROM DESPATCH-TOP
           MOVE 1 TO L
           PERFORM WITH TEST AFTER UNTIL NOT (L <= LINES-HELD)
               MOVE HELD-PART (L) TO P
               MOVE 0 TO SHORT-BY
               MOVE HELD-QUANTITY (L) TO TO-SEND
               IF TO-SEND <= PART-ON-HAND (P)
                   CONTINUE
               ELSE
                   SUBTRACT PART-ON-HAND (P) FROM TO-SEND GIVING
                       SHORT-BY
                   MOVE PART-ON-HAND (P) TO TO-SEND
                   IF TO-SEND NEGATIVE
                       MOVE 0 TO TO-SEND
                       MOVE HELD-QUANTITY (L) TO SHORT-BY
                   END-IF
                   MOVE HELD-NUMBER TO BACK-ORDER
                   MOVE PART-NUMBER (P) TO BACK-PART
                   MOVE SHORT-BY TO BACK-QUANTITY
                   WRITE BACK-RECORD
                   ADD SHORT-BY TO PART-ON-ORDER (P)
               END-IF
               SUBTRACT TO-SEND FROM PART-ON-HAND (P)
               MOVE PART-NUMBER (P) TO DETAIL-PART
               MOVE TO-SEND TO DETAIL-SENT
               MOVE PART-PRICE (P) TO DETAIL-PRICE
               MULTIPLY TO-SEND BY PART-PRICE (P) GIVING DETAIL-VALUE
               SUBTRACT SHORT-BY FROM 0 GIVING DETAIL-SHORT
               MOVE SPACE TO DETAIL-NOTE
               IF SHORT-BY > 0
                   MOVE "  TO FOLLOW" TO DETAIL-NOTE
               END-IF
               WRITE DESPATCH-LINE FROM DESPATCH-DETAIL
               ADD 1 TO L
           END-PERFORM
           ADD 1 TO ORDERS-TAKEN
           ADD ORDER-VALUE TO VALUE-TAKEN.
       GET-ORDER.
           READ ORDER-FILE
               AT END
                   MOVE "Y" TO ORDERS-ENDED
           END-READ.
