       IDENTIFICATION DIVISION.
       PROGRAM-ID. WEEKPAY.
       AUTHOR. P J LINDQVIST.
       INSTALLATION. FORGE AND FOUNDRY, WAGES OFFICE.
       DATE-WRITTEN. OCTOBER 1977.
       REMARKS.
           WEEKLY WAGES.  THE STAFF FILE AND THE WEEK'S TIME CARDS ARE
           BOTH IN ORDER OF CLOCK NUMBER.  EACH MAN'S CARDS ARE PRICED,
           TAX AND INSURANCE ARE TAKEN, A PAY SLIP OF FIVE LINES IS
           PRINTED, AND HIS YEAR TO DATE IS BROUGHT FORWARD.  AT THE
           END THE DEPARTMENTS ARE SHOWN, AND THE NOTES AND COINS THAT
           THE BANK IS TO SEND.
       ENVIRONMENT DIVISION.
       CONFIGURATION SECTION.
       SOURCE-COMPUTER. ICL-2903.
       OBJECT-COMPUTER. ICL-2903.
       INPUT-OUTPUT SECTION.
       FILE-CONTROL.
           SELECT STAFF-FILE ASSIGN TO "STAFF.DAT".
           SELECT CARD-FILE ASSIGN TO "CARDS.DAT".
           SELECT NEW-STAFF ASSIGN TO "NEWSTAFF.OUT".
           SELECT SLIP-FILE ASSIGN TO "PAYSLIPS.OUT".
       DATA DIVISION.
       FILE SECTION.
       FD  STAFF-FILE
           LABEL RECORDS ARE STANDARD
           BLOCK CONTAINS 20 RECORDS.
       01  STAFF-RECORD.
           05  STAFF-NUMBER            PIC 9(5).
           05  STAFF-NAME              PIC X(14).
           05  STAFF-DEPT              PIC 99.
           05  STAFF-RATE              PIC 9(2)V9(3).
           05  STAFF-FREE-PAY          PIC 9(3)V99.
           05  STAFF-SIGN              PIC X.
               88  STAFF-LEAVES        VALUE "L".
               88  STAFF-BY-BANK       VALUE "B".
           05  STAFF-WEEKS             PIC S9(3)      COMP.
           05  STAFF-GROSS-TO-DATE     PIC S9(7)V99   COMP-3.
           05  STAFF-TAX-TO-DATE       PIC S9(7)V99   COMP-3.
       FD  CARD-FILE
           LABEL RECORDS ARE OMITTED.
       01  TIME-CARD.
           05  CARD-NUMBER             PIC 9(5).
           05  CARD-DAY                PIC 9.
           05  CARD-KIND               PIC X.
               88  CARD-AT-WORK        VALUE "W".
               88  CARD-SICK           VALUE "S".
               88  CARD-HOLIDAY        VALUE "H".
           05  CARD-HOURS              PIC 9(2)V9.
       FD  NEW-STAFF
           LABEL RECORDS ARE STANDARD
           BLOCK CONTAINS 20 RECORDS.
       01  NEW-STAFF-RECORD            PIC X(44).
       FD  SLIP-FILE
           LABEL RECORDS ARE OMITTED.
       01  SLIP-LINE                   PIC X(48).
       WORKING-STORAGE SECTION.
       77  WEEK-NUMBER                 PIC 99         VALUE 27.
       77  HIGH-KEY                    PIC 9(6)       VALUE 999999.
       01  KEYS                        COMP.
           05  STAFF-KEY               PIC 9(6)       VALUE 0.
           05  CARD-KEY                PIC 9(6)       VALUE 0.
           05  LAST-STAFF-KEY          PIC 9(6)       VALUE 0.
       01  COUNTERS                    USAGE IS COMP.
           05  MEN-PAID                PIC 9(5)       VALUE 0.
           05  MEN-ABSENT              PIC 9(5)       VALUE 0.
           05  CARDS-READ              PIC 9(5)       VALUE 0.
           05  CARDS-REFUSED           PIC 9(5)       VALUE 0.
           05  D                       PIC 9(4)       VALUE 0.
           05  B                       PIC 9(4)       VALUE 0.
           05  C                       PIC 9(4)       VALUE 0.
      *    ---- WHAT AN HOUR OF EACH DAY COUNTS, MONDAY FIRST
       01  DAY-FACTOR-VALUES           PIC X(14)
               VALUE "10101010101520".
       01  DAY-FACTORS REDEFINES DAY-FACTOR-VALUES.
           05  DAY-FACTOR              PIC 9V9 OCCURS 7.
      *    ---- TAX BANDS: UP TO SO MUCH TAXABLE, SO MUCH IN THE HUNDRED
       01  BAND-VALUES.
           05  FILLER                  PIC X(7)       VALUE "0150025".
           05  FILLER                  PIC X(7)       VALUE "1200034".
           05  FILLER                  PIC X(7)       VALUE "3000045".
           05  FILLER                  PIC X(7)       VALUE "9999960".
       01  BANDS REDEFINES BAND-VALUES.
           05  BAND                    OCCURS 4.
               10  BAND-TOP            PIC 9(3)V99.
               10  BAND-RATE           PIC V99.
      *    ---- NOTES AND COINS, IN PENCE
       01  COIN-VALUES.
           05  FILLER                  PIC X(12)  VALUE "200010000500".
           05  FILLER                  PIC X(12)  VALUE "010000500010".
           05  FILLER                  PIC X(12)  VALUE "000500020001".
       01  COINS REDEFINES COIN-VALUES.
           05  COIN-WORTH              PIC 9(4) OCCURS 9.
       01  COIN-TABLE                  COMP.
           05  COIN-COUNT              PIC 9(5)  OCCURS 9 VALUE ZERO.
       01  DEPARTMENT-TABLE            COMP-3.
           05  DEPARTMENT              OCCURS 5.
               10  DEPT-MEN            PIC S9(3).
               10  DEPT-GROSS          PIC S9(7)V99.
               10  DEPT-NET            PIC S9(7)V99.
       01  THE-WEEK                    COMP-3.
           05  WEEK-HOURS              PIC S9(3)V9    VALUE 0.
           05  PAID-HOURS              PIC S9(3)V99   VALUE 0.
           05  SICK-DAYS               PIC S9         VALUE 0.
           05  GROSS-PAY               PIC S9(5)V99   VALUE 0.
           05  TAXABLE                 PIC S9(5)V99   VALUE 0.
           05  TAX                     PIC S9(5)V99   VALUE 0.
           05  INSURANCE               PIC S9(3)V99   VALUE 0.
           05  NET-PAY                 PIC S9(5)V99   VALUE 0.
           05  BAND-PART               PIC S9(5)V99   VALUE 0.
           05  BAND-FLOOR              PIC S9(3)V99   VALUE 0.
       01  PENCE-LEFT                  PIC 9(7)       COMP VALUE 0.
       01  HOW-MANY                    PIC 9(5)       COMP VALUE 0.
       01  REASON                      PIC X(16)      VALUE SPACES.
       01  SLIP-HEAD.
           05  FILLER                  PIC X(5)       VALUE "WEEK".
           05  HEAD-WEEK               PIC Z9.
           05  FILLER                  PIC X(2)       VALUE SPACES.
           05  HEAD-NUMBER             PIC 99/999.
           05  FILLER                  PIC X(2)       VALUE SPACES.
           05  HEAD-NAME               PIC X(14).
           05  FILLER                  PIC X(6)       VALUE " DEPT".
           05  HEAD-DEPT               PIC Z9.
       01  SLIP-HOURS.
           05  FILLER                  PIC X(7)       VALUE "HOURS".
           05  HOURS-WORKED            PIC ZZ9.9.
           05  FILLER                  PIC X(8)       VALUE "  PAID".
           05  HOURS-PAID              PIC ZZ9.99.
           05  FILLER                  PIC X(6)       VALUE "  AT".
           05  HOURS-RATE              PIC $9.999.
           05  HOURS-SICK              PIC X(10).
       01  SLIP-MONEY.
           05  MONEY-TEXT              PIC X(12).
           05  MONEY-AMOUNT            PIC $$,$$9.99CR.
           05  MONEY-TO-DATE-TEXT      PIC X(12).
           05  MONEY-TO-DATE           PIC Z,ZZZ,ZZ9.99.
       01  SLIP-NET.
           05  FILLER                  PIC X(12)      VALUE "NET PAY".
           05  NET-SHOWN               PIC $**,**9.99.
           05  NET-HOW                 PIC X(16).
       01  DEPARTMENT-LINE.
           05  FILLER                  PIC X(5)       VALUE "DEPT".
           05  DEPARTMENT-SHOWN        PIC Z9.
           05  MEN-SHOWN               PIC ZZZ9.
           05  GROSS-SHOWN             PIC ZZ,ZZZ,ZZ9.99-.
           05  NET-DEPT-SHOWN          PIC ZZ,ZZZ,ZZ9.99-.
       01  COIN-LINE.
           05  COIN-SHOWN              PIC ZZ,ZZ9.
           05  FILLER                  PIC X(4)       VALUE " OF".
           05  WORTH-SHOWN             PIC $$9.99.
       PROCEDURE DIVISION.
       AA-CONTROL SECTION.
       AA-START.
           OPEN INPUT STAFF-FILE CARD-FILE
               OUTPUT NEW-STAFF SLIP-FILE.
           PERFORM AB-CLEAR-DEPARTMENT
               VARYING D FROM 1 BY 1 UNTIL D > 5.
           PERFORM EA-READ-STAFF THRU EA-EXIT.
           PERFORM EB-READ-CARD THRU EB-EXIT.
       AA-NEXT-MAN.
           IF STAFF-KEY = HIGH-KEY GO TO AA-STRAYS.
           MOVE 0 TO WEEK-HOURS PAID-HOURS SICK-DAYS.
       AA-NEXT-CARD.
           IF CARD-KEY > STAFF-KEY GO TO AA-PAY.
           IF CARD-KEY < STAFF-KEY
               MOVE "NO SUCH MAN" TO REASON
               PERFORM CB-REFUSE
           ELSE
               PERFORM CA-CARD THRU CA-EXIT.
           PERFORM EB-READ-CARD THRU EB-EXIT.
           GO TO AA-NEXT-CARD.
       AA-PAY.
           IF WEEK-HOURS = ZERO AND SICK-DAYS = ZERO
               ADD 1 TO MEN-ABSENT
               DISPLAY STAFF-NUMBER " " STAFF-NAME " NO CARDS"
               GO TO AA-BRING-FORWARD.
           PERFORM DA-GROSS THRU DA-EXIT.
           PERFORM DB-TAX THRU DB-EXIT.
           PERFORM DC-SLIP THRU DC-EXIT.
           IF NOT STAFF-BY-BANK
               PERFORM DD-COINAGE THRU DD-EXIT.
       AA-BRING-FORWARD.
           IF STAFF-LEAVES
               DISPLAY STAFF-NUMBER " " STAFF-NAME " HAS LEFT"
           ELSE
               WRITE NEW-STAFF-RECORD FROM STAFF-RECORD.
           PERFORM EA-READ-STAFF THRU EA-EXIT.
           GO TO AA-NEXT-MAN.
       AA-STRAYS.
           IF CARD-KEY = HIGH-KEY GO TO AA-FINISH.
           MOVE "NO SUCH MAN" TO REASON.
           PERFORM CB-REFUSE.
           PERFORM EB-READ-CARD THRU EB-EXIT.
           GO TO AA-STRAYS.
       AA-FINISH.
           PERFORM FA-DEPARTMENT THRU FA-EXIT
               VARYING D FROM 1 BY 1 UNTIL D > 5.
           PERFORM FB-COIN THRU FB-EXIT
               VARYING C FROM 1 BY 1 UNTIL C > 9.
           DISPLAY "CARDS " CARDS-READ " REFUSED " CARDS-REFUSED
               " PAID " MEN-PAID " ABSENT " MEN-ABSENT.
           CLOSE STAFF-FILE CARD-FILE NEW-STAFF SLIP-FILE.
           STOP RUN.
       AB-CLEAR-DEPARTMENT.
           MOVE 0 TO DEPT-MEN (D) DEPT-GROSS (D) DEPT-NET (D).
      *    ------------------------------------------ ONE TIME CARD
       CA-CARDS SECTION.
       CA-CARD.
           MOVE SPACES TO REASON.
           IF CARD-DAY NOT NUMERIC OR CARD-DAY < 1 OR > 7
               MOVE "WHICH DAY" TO REASON
               GO TO CA-BAD.
           IF CARD-SICK GO TO CA-SICK.
           IF CARD-HOLIDAY GO TO CA-HOLIDAY.
           IF CARD-HOURS NOT NUMERIC
               MOVE "HOURS" TO REASON
               GO TO CA-BAD.
           IF NOT CARD-AT-WORK
               MOVE "WHICH KIND" TO REASON
               GO TO CA-BAD.
           IF CARD-HOURS > 16
               MOVE "TOO MANY HOURS" TO REASON
               GO TO CA-BAD.
           ADD CARD-HOURS TO WEEK-HOURS.
      *    ABOVE EIGHT HOURS A DAY AND A HALF FOR EACH HOUR
           COMPUTE PAID-HOURS ROUNDED =
               PAID-HOURS + CARD-HOURS * DAY-FACTOR (CARD-DAY).
           IF CARD-HOURS NOT > 8 GO TO CA-EXIT.
           COMPUTE PAID-HOURS ROUNDED =
               PAID-HOURS + (CARD-HOURS - 8) * 0.5.
           GO TO CA-EXIT.
       CA-SICK.
           IF SICK-DAYS = 5 NEXT SENTENCE
           ELSE ADD 1 TO SICK-DAYS.
           GO TO CA-EXIT.
       CA-HOLIDAY.
           ADD 8 TO WEEK-HOURS.
           ADD 8 TO PAID-HOURS.
           GO TO CA-EXIT.
       CA-BAD.
           PERFORM CB-REFUSE.
       CA-EXIT.
           EXIT.
       CB-REFUSE.
           DISPLAY "CARD " TIME-CARD " " REASON.
           ADD 1 TO CARDS-REFUSED.
      *    ------------------------------------------ PAY AND TAX
       DA-MONEY SECTION.
       DA-GROSS.
           MULTIPLY PAID-HOURS BY STAFF-RATE GIVING GROSS-PAY ROUNDED
               ON SIZE ERROR
                   DISPLAY STAFF-NUMBER " GROSS TOO LARGE"
                   MOVE 99999.99 TO GROSS-PAY.
           IF SICK-DAYS = ZERO GO TO DA-EXIT.
      *    HALF A DAY OF EIGHT HOURS FOR EACH DAY, AFTER THE FIRST
           COMPUTE GROSS-PAY ROUNDED =
               GROSS-PAY + (SICK-DAYS - 1) * STAFF-RATE * 4.
       DA-EXIT.
           EXIT.
       DB-TAX.
           MOVE 0 TO TAX BAND-FLOOR.
           SUBTRACT STAFF-FREE-PAY FROM GROSS-PAY GIVING TAXABLE.
           IF TAXABLE NOT POSITIVE GO TO DB-INSURANCE.
           MOVE 1 TO B.
       DB-NEXT-BAND.
           IF TAXABLE > BAND-TOP (B)
               SUBTRACT BAND-FLOOR FROM BAND-TOP (B) GIVING BAND-PART
           ELSE
               SUBTRACT BAND-FLOOR FROM TAXABLE GIVING BAND-PART.
           COMPUTE TAX ROUNDED = TAX + BAND-PART * BAND-RATE (B).
           IF TAXABLE NOT > BAND-TOP (B) GO TO DB-INSURANCE.
           MOVE BAND-TOP (B) TO BAND-FLOOR.
           ADD 1 TO B.
           IF B < 5 GO TO DB-NEXT-BAND.
       DB-INSURANCE.
           MULTIPLY GROSS-PAY BY 0.0575 GIVING INSURANCE ROUNDED.
           IF INSURANCE > 6.90 MOVE 6.90 TO INSURANCE.
           SUBTRACT TAX INSURANCE FROM GROSS-PAY GIVING NET-PAY.
           ADD GROSS-PAY TO STAFF-GROSS-TO-DATE.
           ADD TAX TO STAFF-TAX-TO-DATE.
           ADD 1 TO STAFF-WEEKS.
       DB-EXIT.
           EXIT.
       DC-SLIP.
           MOVE WEEK-NUMBER TO HEAD-WEEK.
           MOVE STAFF-NUMBER TO HEAD-NUMBER.
           MOVE STAFF-NAME TO HEAD-NAME.
           MOVE STAFF-DEPT TO HEAD-DEPT D.
           WRITE SLIP-LINE FROM SLIP-HEAD.
           MOVE WEEK-HOURS TO HOURS-WORKED.
           MOVE PAID-HOURS TO HOURS-PAID.
           MOVE STAFF-RATE TO HOURS-RATE.
           MOVE SPACES TO HOURS-SICK.
           IF SICK-DAYS > 0 MOVE "  SICK" TO HOURS-SICK.
           WRITE SLIP-LINE FROM SLIP-HOURS.
           MOVE "GROSS" TO MONEY-TEXT.
           MOVE GROSS-PAY TO MONEY-AMOUNT.
           MOVE "  THIS YEAR" TO MONEY-TO-DATE-TEXT.
           MOVE STAFF-GROSS-TO-DATE TO MONEY-TO-DATE.
           WRITE SLIP-LINE FROM SLIP-MONEY.
           MOVE "TAX" TO MONEY-TEXT.
           SUBTRACT TAX FROM ZERO GIVING MONEY-AMOUNT.
           MOVE STAFF-TAX-TO-DATE TO MONEY-TO-DATE.
           WRITE SLIP-LINE FROM SLIP-MONEY.
           MOVE NET-PAY TO NET-SHOWN.
           MOVE "  IN CASH" TO NET-HOW.
           IF STAFF-BY-BANK MOVE "  TO YOUR BANK" TO NET-HOW.
           WRITE SLIP-LINE FROM SLIP-NET.
           ADD 1 TO MEN-PAID.
           IF D < 1 OR > 5
               DISPLAY STAFF-NUMBER " NO DEPARTMENT " STAFF-DEPT
               GO TO DC-EXIT.
           ADD 1 TO DEPT-MEN (D).
           ADD GROSS-PAY TO DEPT-GROSS (D).
           ADD NET-PAY TO DEPT-NET (D).
       DC-EXIT.
           EXIT.
       DD-COINAGE.
           IF NET-PAY NOT POSITIVE GO TO DD-EXIT.
           MULTIPLY NET-PAY BY 100 GIVING PENCE-LEFT.
           MOVE 1 TO C.
       DD-NEXT-COIN.
           DIVIDE PENCE-LEFT BY COIN-WORTH (C) GIVING HOW-MANY.
           ADD HOW-MANY TO COIN-COUNT (C).
           COMPUTE PENCE-LEFT =
               PENCE-LEFT - HOW-MANY * COIN-WORTH (C).
           ADD 1 TO C.
           IF PENCE-LEFT > 0 AND C < 10 GO TO DD-NEXT-COIN.
       DD-EXIT.
           EXIT.
      *    ------------------------------------------ READING
       EA-READING SECTION.
       EA-READ-STAFF.
           READ STAFF-FILE AT END
               MOVE HIGH-KEY TO STAFF-KEY
               GO TO EA-EXIT.
           IF STAFF-NUMBER NOT NUMERIC OR STAFF-RATE NOT NUMERIC
               OR STAFF-FREE-PAY NOT NUMERIC
                   OR STAFF-GROSS-TO-DATE NOT NUMERIC
               DISPLAY "STAFF RECORD IS SPOILT: " STAFF-NAME
               GO TO EA-READ-STAFF.
           MOVE STAFF-NUMBER TO STAFF-KEY.
           IF STAFF-KEY NOT > LAST-STAFF-KEY
               DISPLAY "STAFF FILE OUT OF ORDER AT " STAFF-NUMBER
               GO TO EA-READ-STAFF.
           MOVE STAFF-KEY TO LAST-STAFF-KEY.
       EA-EXIT.
           EXIT.
       EB-READ-CARD.
           READ CARD-FILE AT END
               MOVE HIGH-KEY TO CARD-KEY
               GO TO EB-EXIT.
           ADD 1 TO CARDS-READ.
           IF CARD-NUMBER NUMERIC
               MOVE CARD-NUMBER TO CARD-KEY
               GO TO EB-EXIT.
           MOVE "CLOCK NUMBER" TO REASON.
           PERFORM CB-REFUSE.
           GO TO EB-READ-CARD.
       EB-EXIT.
           EXIT.
      *    ------------------------------------------ THE END
       FA-ENDING SECTION.
       FA-DEPARTMENT.
           IF DEPT-MEN (D) = 0 GO TO FA-EXIT.
           MOVE D TO DEPARTMENT-SHOWN.
           MOVE DEPT-MEN (D) TO MEN-SHOWN.
           MOVE DEPT-GROSS (D) TO GROSS-SHOWN.
           MOVE DEPT-NET (D) TO NET-DEPT-SHOWN.
           DISPLAY DEPARTMENT-LINE.
       FA-EXIT.
           EXIT.
       FB-COIN.
           IF COIN-COUNT (C) = 0 GO TO FB-EXIT.
           MOVE COIN-COUNT (C) TO COIN-SHOWN.
           DIVIDE COIN-WORTH (C) BY 100 GIVING WORTH-SHOWN.
           DISPLAY COIN-LINE.
       FB-EXIT.
           EXIT.
