       IDENTIFICATION DIVISION.
       PROGRAM-ID. ORDENT.
       AUTHOR. S. A. MWANGI.
       DATE-WRITTEN. JUNE 1984.
      ******************************************************************
      *  ORDERS COME IN ONE FILE OF THREE KINDS OF RECORD: A HEAD FOR
      *  EACH ORDER (H), ITS LINES (L), AND A TRAILER (T) WITH THE
      *  COUNTS THAT THE KEYING CLERK MADE.  STOCK IS LOADED INTO A
      *  TABLE, ALLOCATED IN THE ORDER IN WHICH ORDERS COME, AND WRITTEN
      *  BACK.  WHAT ISN'T THERE GOES TO THE BACK ORDERS.
      *  AN ORDER WITH A MISTAKE IN IT IS LISTED AND PASSED OVER WHOLE.
      ******************************************************************
       ENVIRONMENT DIVISION.
       CONFIGURATION SECTION.
       SOURCE-COMPUTER. HP-3000.
       OBJECT-COMPUTER. HP-3000.
       INPUT-OUTPUT SECTION.
       FILE-CONTROL.
           SELECT ORDER-FILE ASSIGN TO "ORDERS.DAT".
           SELECT STOCK-FILE ASSIGN TO "PARTS.DAT"
               FILE STATUS IS STOCK-STATUS.
           SELECT STOCK-OUT ASSIGN TO "NEWPARTS.OUT".
           SELECT BACK-ORDERS ASSIGN TO "BACKORD.OUT".
           SELECT DESPATCH ASSIGN TO "DESPATCH.OUT".
       DATA DIVISION.
       FILE SECTION.
       FD  ORDER-FILE
           LABEL RECORDS ARE OMITTED
           DATA RECORDS ARE ORDER-HEAD ORDER-LINE ORDER-TRAILER.
       01  ORDER-HEAD.
           05  HEAD-KIND               PIC X.
               88  IS-HEAD             VALUE "H".
               88  IS-LINE             VALUE "L".
               88  IS-TRAILER          VALUE "T".
           05  HEAD-ORDER              PIC 9(5).
           05  HEAD-CUSTOMER           PIC X(12).
           05  HEAD-DISCOUNT           PIC 9(2).
           05  HEAD-CREDIT             PIC 9(5).
       01  ORDER-LINE.
           05  FILLER                  PIC X.
           05  LINE-PART               PIC X(6).
           05  LINE-QUANTITY           PIC 9(4).
           05  FILLER                  PIC X(14).
       01  ORDER-TRAILER.
           05  FILLER                  PIC X.
           05  TRAILER-LINES           PIC 9(3).
           05  TRAILER-QUANTITY        PIC 9(6).
           05  FILLER                  PIC X(15).
       FD  STOCK-FILE LABEL RECORDS ARE STANDARD.
       01  STOCK-RECORD.
           05  STOCK-PART              PIC X(6).
           05  STOCK-PRICE             PIC 9(5)V99   COMP-3.
           05  STOCK-ON-HAND           PIC S9(7)     COMP.
           05  STOCK-ON-ORDER          PIC S9(7)     COMP.
       FD  STOCK-OUT LABEL RECORDS ARE STANDARD.
       01  STOCK-OUT-RECORD            PIC X(18).
       FD  BACK-ORDERS LABEL RECORDS ARE STANDARD.
       01  BACK-RECORD.
           05  BACK-ORDER              PIC 9(5).
           05  BACK-PART               PIC X(6).
           05  BACK-QUANTITY           PIC 9(4).
       FD  DESPATCH LABEL RECORDS ARE OMITTED.
       01  DESPATCH-LINE               PIC X(50).
       WORKING-STORAGE SECTION.
       77  STOCK-STATUS                PIC XX.
       77  ORDERS-ENDED                PIC X         VALUE "N".
           88  NO-MORE-ORDERS          VALUE "Y".
       77  FOUND-SWITCH                PIC X         VALUE "N".
           88  PART-FOUND              VALUE "Y".
       01  SUBSCRIPTS                  COMP.
           05  PARTS-HELD              PIC S9(4)     VALUE 0.
           05  P                       PIC S9(4)     VALUE 0.
           05  LOW-P                   PIC S9(4)     VALUE 0.
           05  HIGH-P                  PIC S9(4)     VALUE 0.
           05  L                       PIC S9(4)     VALUE 0.
           05  LINES-HELD              PIC S9(4)     VALUE 0.
       01  PART-TABLE.
           05  PART-ROW                OCCURS 40.
               10  PART-NUMBER         PIC X(6).
               10  PART-PRICE          PIC 9(5)V99   COMP-3.
               10  PART-ON-HAND        PIC S9(7)     COMP.
               10  PART-ON-ORDER       PIC S9(7)     COMP.
       01  HELD-ORDER.
           05  HELD-NUMBER             PIC 9(5).
           05  HELD-CUSTOMER           PIC X(12).
           05  HELD-DISCOUNT           PIC 9(2).
           05  HELD-CREDIT             PIC 9(5).
           05  HELD-LINE               OCCURS 10.
               10  HELD-PART           PIC S9(4)     COMP.
               10  HELD-QUANTITY       PIC 9(4)      COMP.
       01  ORDER-STATE                 PIC 9         VALUE 0.
           88  ORDER-IS-GOOD           VALUE 0.
           88  ORDER-IS-BAD            VALUE 1 THRU 9.
       01  ORDER-SUMS                  COMP-3.
           05  ORDER-VALUE             PIC S9(7)V99  VALUE 0.
           05  LINE-VALUE              PIC S9(7)V99  VALUE 0.
           05  TO-SEND                 PIC S9(5)     VALUE 0.
           05  SHORT-BY                PIC S9(5)     VALUE 0.
       01  CONTROL-COUNTS              COMP-3.
           05  LINES-SEEN              PIC 9(5)      VALUE 0.
           05  QUANTITY-SEEN           PIC 9(7)      VALUE 0.
           05  ORDERS-TAKEN            PIC 9(5)      VALUE 0.
           05  ORDERS-PASSED-OVER      PIC 9(5)      VALUE 0.
           05  VALUE-TAKEN             PIC S9(9)V99  VALUE 0.
       01  REASONS.
           05  FILLER  PIC X(18)       VALUE "NO SUCH PART".
           05  FILLER  PIC X(18)       VALUE "QUANTITY".
           05  FILLER  PIC X(18)       VALUE "MORE THAN TEN".
           05  FILLER  PIC X(18)       VALUE "ABOVE THE CREDIT".
           05  FILLER  PIC X(18)       VALUE "NO LINES".
       01  REASON-TABLE REDEFINES REASONS.
           05  REASON                  PIC X(18)     OCCURS 5.
       01  DESPATCH-TOP.
           05  FILLER                  PIC X(6)      VALUE "ORDER".
           05  TOP-NUMBER              PIC ZZZZ9.
           05  FILLER                  PIC X(2)      VALUE SPACES.
           05  TOP-CUSTOMER            PIC X(12).
           05  FILLER                  PIC X(11)     VALUE " DISCOUNT".
           05  TOP-DISCOUNT            PIC Z9.
           05  FILLER                  PIC X         VALUE "%".
       01  DESPATCH-DETAIL.
           05  DETAIL-PART             PIC X(7).
           05  DETAIL-SENT             PIC ZZ,ZZ9.
           05  DETAIL-PRICE            PIC ZZ,ZZ9.99.
           05  DETAIL-VALUE            PIC ZZZ,ZZ9.99.
           05  DETAIL-SHORT            PIC ZZ,ZZZ-.
           05  DETAIL-NOTE             PIC X(11).
       01  VALUE-SHOWN                 PIC $$,$$$,$$9.99.
       PROCEDURE DIVISION.
       MAIN-CONTROL SECTION.
       OPEN-FILES.
           OPEN INPUT ORDER-FILE STOCK-FILE.
           IF STOCK-STATUS NOT = "00"
               DISPLAY "NO STOCK, STATUS " STOCK-STATUS
               GO TO STOP-HERE.
           OPEN OUTPUT STOCK-OUT BACK-ORDERS DESPATCH.
           PERFORM LOAD-STOCK THRU LOAD-DONE.
           PERFORM GET-ORDER.
       EACH-ORDER.
           IF NO-MORE-ORDERS
               DISPLAY "NO TRAILER"
               GO TO PUT-STOCK.
           IF IS-TRAILER GO TO CHECK-TRAILER.
           IF NOT IS-HEAD
               DISPLAY "NO HEAD BEFORE " ORDER-HEAD
               PERFORM GET-ORDER
               GO TO EACH-ORDER.
           PERFORM TAKE-ORDER THRU TAKE-ORDER-EXIT.
           IF ORDER-IS-GOOD
               PERFORM SEND-ORDER THRU SEND-ORDER-EXIT
           ELSE
               ADD 1 TO ORDERS-PASSED-OVER
               DISPLAY "ORDER " HELD-NUMBER " " HELD-CUSTOMER " "
                   REASON (ORDER-STATE).
           GO TO EACH-ORDER.
       CHECK-TRAILER.
           IF TRAILER-LINES NOT NUMERIC OR TRAILER-QUANTITY NOT NUMERIC
               DISPLAY "TRAILER IS SPOILT"
               GO TO PUT-STOCK.
           IF TRAILER-LINES = LINES-SEEN
                   AND TRAILER-QUANTITY = QUANTITY-SEEN
               DISPLAY "TRAILER AGREES"
           ELSE
               DISPLAY "TRAILER " TRAILER-LINES " " TRAILER-QUANTITY
                   " SEEN " LINES-SEEN " " QUANTITY-SEEN.
       PUT-STOCK.
           PERFORM PUT-PART VARYING P FROM 1 BY 1
               UNTIL P > PARTS-HELD.
           MOVE VALUE-TAKEN TO VALUE-SHOWN.
           DISPLAY "TAKEN " ORDERS-TAKEN " FOR " VALUE-SHOWN
               ", PASSED OVER " ORDERS-PASSED-OVER.
           CLOSE STOCK-OUT BACK-ORDERS DESPATCH STOCK-FILE.
       STOP-HERE.
           CLOSE ORDER-FILE.
           STOP RUN.
       PUT-PART.
           WRITE STOCK-OUT-RECORD FROM PART-ROW (P).
       LOADING SECTION.
       LOAD-STOCK.
           MOVE 0 TO PARTS-HELD.
       LOAD-NEXT.
           READ STOCK-FILE.
           IF STOCK-STATUS = "10" GO TO LOAD-DONE.
           IF PARTS-HELD = 40
               DISPLAY "TABLE IS FULL AT " STOCK-PART
               GO TO LOAD-DONE.
           IF PARTS-HELD > 0
               IF STOCK-PART NOT > PART-NUMBER (PARTS-HELD)
                   DISPLAY "OUT OF ORDER " STOCK-PART
                   GO TO LOAD-NEXT.
           ADD 1 TO PARTS-HELD.
           MOVE STOCK-RECORD TO PART-ROW (PARTS-HELD).
           GO TO LOAD-NEXT.
       LOAD-DONE.
           EXIT.
      *        A SEARCH BY HALVES
       FIND-PART.
           MOVE "N" TO FOUND-SWITCH.
           MOVE 1 TO LOW-P.
           MOVE PARTS-HELD TO HIGH-P.
       FIND-HALF.
           IF LOW-P > HIGH-P GO TO FIND-EXIT.
           COMPUTE P = (LOW-P + HIGH-P) / 2.
           IF LINE-PART = PART-NUMBER (P)
               MOVE "Y" TO FOUND-SWITCH
               GO TO FIND-EXIT.
           IF LINE-PART < PART-NUMBER (P)
               SUBTRACT 1 FROM P GIVING HIGH-P
           ELSE
               ADD 1 P GIVING LOW-P.
           GO TO FIND-HALF.
       FIND-EXIT.
           EXIT.
       ORDERING SECTION.
       TAKE-ORDER.
           MOVE 0 TO ORDER-STATE LINES-HELD ORDER-VALUE.
           IF HEAD-DISCOUNT NOT NUMERIC MOVE ZERO TO HEAD-DISCOUNT.
           IF HEAD-CREDIT NOT NUMERIC MOVE ZERO TO HEAD-CREDIT.
           MOVE HEAD-ORDER TO HELD-NUMBER.
           MOVE HEAD-CUSTOMER TO HELD-CUSTOMER.
           MOVE HEAD-DISCOUNT TO HELD-DISCOUNT.
           MOVE HEAD-CREDIT TO HELD-CREDIT.
       TAKE-LINE.
           PERFORM GET-ORDER.
           IF NO-MORE-ORDERS OR NOT IS-LINE GO TO TAKE-SUM.
           ADD 1 TO LINES-SEEN.
           IF LINE-QUANTITY NOT NUMERIC OR LINE-QUANTITY = ZERO
               MOVE 2 TO ORDER-STATE
               GO TO TAKE-LINE.
           ADD LINE-QUANTITY TO QUANTITY-SEEN.
           PERFORM FIND-PART THRU FIND-EXIT.
           IF NOT PART-FOUND
               MOVE 1 TO ORDER-STATE
               GO TO TAKE-LINE.
           IF LINES-HELD = 10
               MOVE 3 TO ORDER-STATE
               GO TO TAKE-LINE.
           ADD 1 TO LINES-HELD.
           MOVE P TO HELD-PART (LINES-HELD).
           MOVE LINE-QUANTITY TO HELD-QUANTITY (LINES-HELD).
           MULTIPLY PART-PRICE (P) BY LINE-QUANTITY GIVING LINE-VALUE
               ON SIZE ERROR
                   MOVE 4 TO ORDER-STATE
                   GO TO TAKE-LINE.
           ADD LINE-VALUE TO ORDER-VALUE.
           GO TO TAKE-LINE.
       TAKE-SUM.
           IF ORDER-IS-BAD GO TO TAKE-ORDER-EXIT.
           IF LINES-HELD = 0
               MOVE 5 TO ORDER-STATE
               GO TO TAKE-ORDER-EXIT.
           COMPUTE ORDER-VALUE ROUNDED =
               ORDER-VALUE * (100 - HELD-DISCOUNT) / 100.
           IF ORDER-VALUE > HELD-CREDIT
               MOVE 4 TO ORDER-STATE.
       TAKE-ORDER-EXIT.
           EXIT.
       SEND-ORDER.
           MOVE HELD-NUMBER TO TOP-NUMBER.
           MOVE HELD-CUSTOMER TO TOP-CUSTOMER.
           MOVE HELD-DISCOUNT TO TOP-DISCOUNT.
           WRITE DESPATCH-LINE FROM DESPATCH-TOP.
           MOVE 1 TO L.
       SEND-ORDER-LINE.
           MOVE HELD-PART (L) TO P.
           MOVE 0 TO SHORT-BY.
           MOVE HELD-QUANTITY (L) TO TO-SEND.
           IF TO-SEND NOT > PART-ON-HAND (P) GO TO SEND-ORDER-PRINT.
           SUBTRACT PART-ON-HAND (P) FROM TO-SEND GIVING SHORT-BY.
           MOVE PART-ON-HAND (P) TO TO-SEND.
           IF TO-SEND NEGATIVE MOVE 0 TO TO-SEND
               MOVE HELD-QUANTITY (L) TO SHORT-BY.
           MOVE HELD-NUMBER TO BACK-ORDER.
           MOVE PART-NUMBER (P) TO BACK-PART.
           MOVE SHORT-BY TO BACK-QUANTITY.
           WRITE BACK-RECORD.
           ADD SHORT-BY TO PART-ON-ORDER (P).
       SEND-ORDER-PRINT.
           SUBTRACT TO-SEND FROM PART-ON-HAND (P).
           MOVE PART-NUMBER (P) TO DETAIL-PART.
           MOVE TO-SEND TO DETAIL-SENT.
           MOVE PART-PRICE (P) TO DETAIL-PRICE.
           MULTIPLY TO-SEND BY PART-PRICE (P) GIVING DETAIL-VALUE.
           SUBTRACT SHORT-BY FROM 0 GIVING DETAIL-SHORT.
           MOVE SPACES TO DETAIL-NOTE.
           IF SHORT-BY > 0 MOVE "  TO FOLLOW" TO DETAIL-NOTE.
           WRITE DESPATCH-LINE FROM DESPATCH-DETAIL.
           ADD 1 TO L.
           IF L NOT > LINES-HELD GO TO SEND-ORDER-LINE.
           ADD 1 TO ORDERS-TAKEN.
           ADD ORDER-VALUE TO VALUE-TAKEN.
       SEND-ORDER-EXIT.
           EXIT.
       GET-ORDER.
           READ ORDER-FILE AT END MOVE "Y" TO ORDERS-ENDED.
