       IDENTIFICATION DIVISION.
       PROGRAM-ID. WEEKPAY.
       ENVIRONMENT DIVISION.
       INPUT-OUTPUT SECTION.
       FILE-CONTROL.
           SELECT STAFF-FILE ASSIGN TO "STAFF.DAT".
           SELECT CARD-FILE ASSIGN TO "CARDS.DAT".
           SELECT NEW-STAFF ASSIGN TO "NEWSTAFF.OUT".
           SELECT SLIP-FILE ASSIGN TO "PAYSLIPS.OUT".
       DATA DIVISION.
       FILE SECTION.
       FD STAFF-FILE.
       01 STAFF-RECORD.
           05 STAFF-NUMBER PIC 9(5).
           05 STAFF-NAME PIC X(14).
           05 STAFF-DEPT PIC 9(2).
           05 STAFF-RATE PIC 9(2)V9(3).
           05 STAFF-FREE-PAY PIC 9(3)V9(2).
           05 STAFF-SIGN PIC X.
           88 STAFF-LEAVES VALUE "L".
           88 STAFF-BY-BANK VALUE "B".
           05 STAFF-WEEKS PIC S9(3) BINARY.
           05 STAFF-GROSS-TO-DATE PIC S9(7)V9(2) PACKED-DECIMAL.
           05 STAFF-TAX-TO-DATE PIC S9(7)V9(2) PACKED-DECIMAL.
       FD CARD-FILE.
       01 TIME-CARD.
           05 CARD-NUMBER PIC 9(5).
           05 CARD-DAY PIC 9.
           05 CARD-KIND PIC X.
           88 CARD-AT-WORK VALUE "W".
           88 CARD-SICK VALUE "S".
           88 CARD-HOLIDAY VALUE "H".
           05 CARD-HOURS PIC 9(2)V9.
       FD NEW-STAFF.
       01 NEW-STAFF-RECORD PIC X(44).
       FD SLIP-FILE.
       01 SLIP-LINE PIC X(48).
       WORKING-STORAGE SECTION.
       77 WEEK-NUMBER PIC 9(2) VALUE 27.
       77 HIGH-KEY PIC 9(6) VALUE 999999.
       01 KEYS.
           05 STAFF-KEY PIC 9(6) BINARY VALUE 0.
           05 CARD-KEY PIC 9(6) BINARY VALUE 0.
           05 LAST-STAFF-KEY PIC 9(6) BINARY VALUE 0.
       01 COUNTERS.
           05 MEN-PAID PIC 9(5) BINARY VALUE 0.
           05 MEN-ABSENT PIC 9(5) BINARY VALUE 0.
           05 CARDS-READ PIC 9(5) BINARY VALUE 0.
           05 CARDS-REFUSED PIC 9(5) BINARY VALUE 0.
           05 D PIC 9(4) BINARY VALUE 0.
           05 B PIC 9(4) BINARY VALUE 0.
           05 C PIC 9(4) BINARY VALUE 0.
       01 DAY-FACTOR-VALUES PIC X(14) VALUE "10101010101520".
       01 DAY-FACTORS REDEFINES DAY-FACTOR-VALUES.
           05 DAY-FACTOR PIC 9V9 OCCURS 7.
       01 BAND-VALUES.
           05 FILLER PIC X(7) VALUE "0150025".
           05 FILLER PIC X(7) VALUE "1200034".
           05 FILLER PIC X(7) VALUE "3000045".
           05 FILLER PIC X(7) VALUE "9999960".
       01 BANDS REDEFINES BAND-VALUES.
           05 BAND OCCURS 4.
           10 BAND-TOP PIC 9(3)V9(2).
           10 BAND-RATE PIC V9(2).
       01 COIN-VALUES.
           05 FILLER PIC X(12) VALUE "200010000500".
           05 FILLER PIC X(12) VALUE "010000500010".
           05 FILLER PIC X(12) VALUE "000500020001".
       01 COINS REDEFINES COIN-VALUES.
           05 COIN-WORTH PIC 9(4) OCCURS 9.
       01 COIN-TABLE.
           05 COIN-COUNT PIC 9(5) BINARY OCCURS 9 VALUE ZERO.
       01 DEPARTMENT-TABLE.
           05 DEPARTMENT OCCURS 5.
           10 DEPT-MEN PIC S9(3) PACKED-DECIMAL.
           10 DEPT-GROSS PIC S9(7)V9(2) PACKED-DECIMAL.
           10 DEPT-NET PIC S9(7)V9(2) PACKED-DECIMAL.
       01 THE-WEEK.
           05 WEEK-HOURS PIC S9(3)V9 PACKED-DECIMAL VALUE 0.
           05 PAID-HOURS PIC S9(3)V9(2) PACKED-DECIMAL VALUE 0.
           05 SICK-DAYS PIC S9 PACKED-DECIMAL VALUE 0.
           05 GROSS-PAY PIC S9(5)V9(2) PACKED-DECIMAL VALUE 0.
           05 TAXABLE PIC S9(5)V9(2) PACKED-DECIMAL VALUE 0.
           05 TAX PIC S9(5)V9(2) PACKED-DECIMAL VALUE 0.
           05 INSURANCE PIC S9(3)V9(2) PACKED-DECIMAL VALUE 0.
           05 NET-PAY PIC S9(5)V9(2) PACKED-DECIMAL VALUE 0.
           05 BAND-PART PIC S9(5)V9(2) PACKED-DECIMAL VALUE 0.
           05 BAND-FLOOR PIC S9(3)V9(2) PACKED-DECIMAL VALUE 0.
       01 PENCE-LEFT PIC 9(7) BINARY VALUE 0.
       01 HOW-MANY PIC 9(5) BINARY VALUE 0.
       01 REASON PIC X(16) VALUE SPACE.
       01 SLIP-HEAD.
           05 FILLER PIC X(5) VALUE "WEEK".
           05 HEAD-WEEK PIC Z9.
           05 FILLER PIC X(2) VALUE SPACE.
           05 HEAD-NUMBER PIC 9(2)/9(3).
           05 FILLER PIC X(2) VALUE SPACE.
           05 HEAD-NAME PIC X(14).
           05 FILLER PIC X(6) VALUE " DEPT".
           05 HEAD-DEPT PIC Z9.
       01 SLIP-HOURS.
           05 FILLER PIC X(7) VALUE "HOURS".
           05 HOURS-WORKED PIC Z(2)9.9.
           05 FILLER PIC X(8) VALUE "  PAID".
           05 HOURS-PAID PIC Z(2)9.9(2).
           05 FILLER PIC X(6) VALUE "  AT".
           05 HOURS-RATE PIC $9.9(3).
           05 HOURS-SICK PIC X(10).
       01 SLIP-MONEY.
           05 MONEY-TEXT PIC X(12).
           05 MONEY-AMOUNT PIC $(2),$(2)9.9(2)CR.
           05 MONEY-TO-DATE-TEXT PIC X(12).
           05 MONEY-TO-DATE PIC Z,Z(3),Z(2)9.9(2).
       01 SLIP-NET.
           05 FILLER PIC X(12) VALUE "NET PAY".
           05 NET-SHOWN PIC $*(2),*(2)9.9(2).
           05 NET-HOW PIC X(16).
       01 DEPARTMENT-LINE.
           05 FILLER PIC X(5) VALUE "DEPT".
           05 DEPARTMENT-SHOWN PIC Z9.
           05 MEN-SHOWN PIC Z(3)9.
           05 GROSS-SHOWN PIC Z(2),Z(3),Z(2)9.9(2)-.
           05 NET-DEPT-SHOWN PIC Z(2),Z(3),Z(2)9.9(2)-.
       01 COIN-LINE.
           05 COIN-SHOWN PIC Z(2),Z(2)9.
           05 FILLER PIC X(4) VALUE " OF".
           05 WORTH-SHOWN PIC $(2)9.9(2).
       01 RX-STATE-1 PIC 9(6) VALUE 0.
       01 RX-FLAG-1 PIC 9 VALUE 0.
       01 RX-FLAG-2 PIC 9 VALUE 0.
       01 RX-FLAG-3 PIC 9 VALUE 0.
       PROCEDURE DIVISION.
       AA-START.
           OPEN INPUT STAFF-FILE CARD-FILE OUTPUT NEW-STAFF SLIP-FILE
           PERFORM AB-CLEAR-DEPARTMENT VARYING D FROM 1 BY 1 UNTIL D > 5
           PERFORM EA-READ-STAFF
           PERFORM EB-READ-CARD
           PERFORM UNTIL STAFF-KEY = HIGH-KEY
               MOVE 0 TO WEEK-HOURS PAID-HOURS SICK-DAYS
               PERFORM UNTIL CARD-KEY > STAFF-KEY
                   IF CARD-KEY < STAFF-KEY
                       MOVE "NO SUCH MAN" TO REASON
                       PERFORM CB-REFUSE
                   ELSE
                       PERFORM CA-CARD
                   END-IF
                   PERFORM EB-READ-CARD
               END-PERFORM
               IF WEEK-HOURS = ZERO AND SICK-DAYS = ZERO
                   ADD 1 TO MEN-ABSENT
                   DISPLAY STAFF-NUMBER " " STAFF-NAME " NO CARDS"
               ELSE
                   PERFORM DA-GROSS
                   PERFORM DB-TAX
                   PERFORM DC-SLIP
                   IF NOT (STAFF-BY-BANK)
                       PERFORM DD-COINAGE
                   END-IF
               END-IF
               IF STAFF-LEAVES
                   DISPLAY STAFF-NUMBER " " STAFF-NAME " HAS LEFT"
               ELSE
                   WRITE NEW-STAFF-RECORD FROM STAFF-RECORD
               END-IF
               PERFORM EA-READ-STAFF
           END-PERFORM
           PERFORM UNTIL CARD-KEY = HIGH-KEY
               MOVE "NO SUCH MAN" TO REASON
               PERFORM CB-REFUSE
               PERFORM EB-READ-CARD
           END-PERFORM
           PERFORM FA-DEPARTMENT VARYING D FROM 1 BY 1 UNTIL D > 5
           PERFORM FB-COIN VARYING C FROM 1 BY 1 UNTIL C > 9
           DISPLAY "CARDS " CARDS-READ " REFUSED " CARDS-REFUSED
               " PAID " MEN-PAID " ABSENT " MEN-ABSENT
           CLOSE STAFF-FILE CARD-FILE NEW-STAFF SLIP-FILE
           STOP RUN.
       AB-CLEAR-DEPARTMENT.
           MOVE 0 TO DEPT-MEN (D) DEPT-GROSS (D) DEPT-NET (D).
       CA-CARD.
           MOVE 1 TO RX-STATE-1
           PERFORM UNTIL RX-STATE-1 = 0
               EVALUATE RX-STATE-1
                   WHEN 1
                       MOVE SPACE TO REASON
                       IF (CARD-DAY NOT NUMERIC OR CARD-DAY < 1) OR
                           CARD-DAY > 7
                           MOVE "WHICH DAY" TO REASON
                           MOVE 2 TO RX-STATE-1
                       ELSE
                           IF CARD-SICK
                               IF SICK-DAYS = 5
                               CONTINUE
                               ELSE
                               ADD 1 TO SICK-DAYS
                               END-IF
                               MOVE 3 TO RX-STATE-1
                           ELSE
                               IF CARD-HOLIDAY
                               ADD 8 TO WEEK-HOURS
                               ADD 8 TO PAID-HOURS
                               MOVE 3 TO RX-STATE-1
                               ELSE
                               IF CARD-HOURS NOT NUMERIC
                               MOVE "HOURS" TO REASON
                               MOVE 2 TO RX-STATE-1
                               ELSE
                               IF NOT (CARD-AT-WORK)
                               MOVE "WHICH KIND" TO REASON
                               MOVE 2 TO RX-STATE-1
                               ELSE
                               IF CARD-HOURS > 16
                               MOVE "TOO MANY HOURS" TO REASON
                               MOVE 2 TO RX-STATE-1
                               ELSE
                               ADD CARD-HOURS TO WEEK-HOURS
                               COMPUTE PAID-HOURS ROUNDED = PAID-HOURS +
                                   (CARD-HOURS * DAY-FACTOR (CARD-DAY))
                               IF CARD-HOURS <= 8
                               CONTINUE
                               ELSE
                               COMPUTE PAID-HOURS ROUNDED = PAID-HOURS +
                                   ((CARD-HOURS - 8) * 0.5)
                               END-IF
                               MOVE 3 TO RX-STATE-1
                               END-IF
                               END-IF
                               END-IF
                               END-IF
                           END-IF
                       END-IF
                   WHEN 2
                       PERFORM CB-REFUSE
                       MOVE 3 TO RX-STATE-1
                   WHEN 3
                       MOVE 0 TO RX-STATE-1
               END-EVALUATE
           END-PERFORM.
       DA-GROSS.
           MULTIPLY PAID-HOURS BY STAFF-RATE GIVING GROSS-PAY ROUNDED
               ON SIZE ERROR
                   DISPLAY STAFF-NUMBER " GROSS TOO LARGE"
                   MOVE 99999.99 TO GROSS-PAY
           END-MULTIPLY
           IF SICK-DAYS = ZERO
               CONTINUE
           ELSE
               COMPUTE GROSS-PAY ROUNDED = GROSS-PAY + (((SICK-DAYS - 1)
                   * STAFF-RATE) * 4)
           END-IF.
       DB-TAX.
           MOVE 0 TO TAX BAND-FLOOR
           SUBTRACT STAFF-FREE-PAY FROM GROSS-PAY GIVING TAXABLE
           IF TAXABLE NOT POSITIVE
               CONTINUE
           ELSE
               MOVE 1 TO B
               MOVE 0 TO RX-FLAG-1
               PERFORM UNTIL RX-FLAG-1 = 1
                   IF TAXABLE > BAND-TOP (B)
                       SUBTRACT BAND-FLOOR FROM BAND-TOP (B) GIVING
                           BAND-PART
                   ELSE
                       SUBTRACT BAND-FLOOR FROM TAXABLE GIVING BAND-PART
                   END-IF
                   COMPUTE TAX ROUNDED = TAX + (BAND-PART * BAND-RATE (B
                       ))
                   IF TAXABLE <= BAND-TOP (B)
                       MOVE 1 TO RX-FLAG-1
                   ELSE
                       MOVE BAND-TOP (B) TO BAND-FLOOR
                       ADD 1 TO B
                       IF B < 5
                           CONTINUE
                       ELSE
                           MOVE 1 TO RX-FLAG-1
                       END-IF
                   END-IF
               END-PERFORM
           END-IF
           MULTIPLY GROSS-PAY BY 0.0575 GIVING INSURANCE ROUNDED
           IF INSURANCE > 6.90
               MOVE 6.90 TO INSURANCE
           END-IF
           SUBTRACT TAX INSURANCE FROM GROSS-PAY GIVING NET-PAY
           ADD GROSS-PAY TO STAFF-GROSS-TO-DATE
           ADD TAX TO STAFF-TAX-TO-DATE
           ADD 1 TO STAFF-WEEKS.
       DC-SLIP.
           MOVE WEEK-NUMBER TO HEAD-WEEK
           MOVE STAFF-NUMBER TO HEAD-NUMBER
           MOVE STAFF-NAME TO HEAD-NAME
           MOVE STAFF-DEPT TO HEAD-DEPT D
           WRITE SLIP-LINE FROM SLIP-HEAD
           MOVE WEEK-HOURS TO HOURS-WORKED
           MOVE PAID-HOURS TO HOURS-PAID
           MOVE STAFF-RATE TO HOURS-RATE
           MOVE SPACE TO HOURS-SICK
           IF SICK-DAYS > 0
               MOVE "  SICK" TO HOURS-SICK
           END-IF
           WRITE SLIP-LINE FROM SLIP-HOURS
           MOVE "GROSS" TO MONEY-TEXT
           MOVE GROSS-PAY TO MONEY-AMOUNT
           MOVE "  THIS YEAR" TO MONEY-TO-DATE-TEXT
           MOVE STAFF-GROSS-TO-DATE TO MONEY-TO-DATE
           WRITE SLIP-LINE FROM SLIP-MONEY
           MOVE "TAX" TO MONEY-TEXT
           SUBTRACT TAX FROM ZERO GIVING MONEY-AMOUNT
           MOVE STAFF-TAX-TO-DATE TO MONEY-TO-DATE
           WRITE SLIP-LINE FROM SLIP-MONEY
           MOVE NET-PAY TO NET-SHOWN
           MOVE "  IN CASH" TO NET-HOW
           IF STAFF-BY-BANK
               MOVE "  TO YOUR BANK" TO NET-HOW
           END-IF
           WRITE SLIP-LINE FROM SLIP-NET
           ADD 1 TO MEN-PAID
           IF D < 1 OR D > 5
               DISPLAY STAFF-NUMBER " NO DEPARTMENT " STAFF-DEPT
           ELSE
               ADD 1 TO DEPT-MEN (D)
               ADD GROSS-PAY TO DEPT-GROSS (D)
               ADD NET-PAY TO DEPT-NET (D)
           END-IF.
       DD-COINAGE.
           IF NET-PAY NOT POSITIVE
               CONTINUE
           ELSE
               MULTIPLY NET-PAY BY 100 GIVING PENCE-LEFT
               MOVE 1 TO C
               PERFORM WITH TEST AFTER UNTIL NOT (PENCE-LEFT > 0 AND C <
                   10)
                   DIVIDE COIN-WORTH (C) INTO PENCE-LEFT GIVING HOW-MANY
                   ADD HOW-MANY TO COIN-COUNT (C)
                   COMPUTE PENCE-LEFT = PENCE-LEFT - (HOW-MANY *
                       COIN-WORTH (C))
                   ADD 1 TO C
               END-PERFORM
           END-IF.
       EA-READ-STAFF.
           MOVE 0 TO RX-FLAG-2
           PERFORM UNTIL RX-FLAG-2 = 1
               READ STAFF-FILE
                   AT END
                       MOVE HIGH-KEY TO STAFF-KEY
                       MOVE 1 TO RX-FLAG-2
                   NOT AT END
                       IF ((STAFF-NUMBER NOT NUMERIC OR STAFF-RATE NOT
                           NUMERIC) OR STAFF-FREE-PAY NOT NUMERIC) OR
                           STAFF-GROSS-TO-DATE NOT NUMERIC
                           DISPLAY "STAFF RECORD IS SPOILT: " STAFF-NAME
                       ELSE
                           MOVE STAFF-NUMBER TO STAFF-KEY
                           IF STAFF-KEY <= LAST-STAFF-KEY
                               DISPLAY "STAFF FILE OUT OF ORDER AT "
                                   STAFF-NUMBER
                           ELSE
                               MOVE STAFF-KEY TO LAST-STAFF-KEY
                               MOVE 1 TO RX-FLAG-2
                           END-IF
                       END-IF
               END-READ
           END-PERFORM.
       EB-READ-CARD.
           MOVE 0 TO RX-FLAG-3
           PERFORM UNTIL RX-FLAG-3 = 1
               READ CARD-FILE
                   AT END
                       MOVE HIGH-KEY TO CARD-KEY
                       MOVE 1 TO RX-FLAG-3
                   NOT AT END
                       ADD 1 TO CARDS-READ
                       IF CARD-NUMBER NUMERIC
                           MOVE CARD-NUMBER TO CARD-KEY
                           MOVE 1 TO RX-FLAG-3
                       ELSE
                           MOVE "CLOCK NUMBER" TO REASON
                           PERFORM CB-REFUSE
                       END-IF
               END-READ
           END-PERFORM.
       CB-REFUSE.
           DISPLAY "CARD " TIME-CARD " " REASON
           ADD 1 TO CARDS-REFUSED.
       FA-DEPARTMENT.
           IF DEPT-MEN (D) = 0
               CONTINUE
           ELSE
               MOVE D TO DEPARTMENT-SHOWN
               MOVE DEPT-MEN (D) TO MEN-SHOWN
               MOVE DEPT-GROSS (D) TO GROSS-SHOWN
               MOVE DEPT-NET (D) TO NET-DEPT-SHOWN
               DISPLAY DEPARTMENT-LINE
           END-IF.
       FB-COIN.
           IF COIN-COUNT (C) = 0
               CONTINUE
           ELSE
               MOVE COIN-COUNT (C) TO COIN-SHOWN
               DIVIDE 100 INTO COIN-WORTH (C) GIVING WORTH-SHOWN
               DISPLAY COIN-LINE
           END-IF.
