       IDENTIFICATION DIVISION.
       PROGRAM-ID. CLAIMS.
       ENVIRONMENT DIVISION.
       INPUT-OUTPUT SECTION.
       FILE-CONTROL.
           SELECT CLAIM-FILE ASSIGN TO "CLAIMS.DAT".
           SELECT GOOD-FILE ASSIGN TO "GOOD.OUT".
           SELECT ERROR-FILE ASSIGN TO "ERRORS.OUT".
       DATA DIVISION.
       FILE SECTION.
       FD CLAIM-FILE.
       01 CLAIM-IN.
           05 CLAIM-NUMBER PIC X(6).
           05 CLAIM-POLICY.
           10 POLICY-TYPE PIC X.
           88 IS-HOME VALUE "H".
           88 IS-MOTOR VALUE "M".
           88 IS-KNOWN VALUE "H" "M" "T" THRU "W".
           10 POLICY-NUMBER PIC X(5).
           05 CLAIM-DAY PIC 9(2).
           88 DAY-OF-MONTH VALUE 1 THRU 31.
           05 CLAIM-MONTH PIC 9(2).
           88 MONTH-OF-YEAR VALUE 1 THRU 12.
           88 SHORT-MONTH VALUE 4 6 9 11.
           05 CLAIM-AMOUNT PIC 9(5).
       FD GOOD-FILE.
       01 GOOD-OUT.
           05 GOOD-IMAGE PIC X(21).
           05 GOOD-EXCESS PIC 9(5).
           05 GOOD-PAID PIC 9(5).
       FD ERROR-FILE.
       01 ERROR-OUT.
           05 ERROR-IMAGE PIC X(21).
           05 ERROR-CODE PIC 9(2).
       WORKING-STORAGE SECTION.
       01 COUNTERS.
           05 GOOD-COUNT PIC 9(4) VALUE 0.
           05 FAULT-COUNT PIC 9(4) VALUE 0.
           05 FAULTS-IN-A-ROW PIC 9(2) VALUE 0.
           05 CHARACTER-AT PIC 9.
       01 END-FLAG PIC X VALUE "N".
       01 PAID-TOTAL PIC 9(6) VALUE 0.
       01 RX-FLAG-1 PIC 9 VALUE 0.
       01 RX-FLAG-2 PIC 9 VALUE 0.
       PROCEDURE DIVISION.
       BEGIN.
           OPEN INPUT CLAIM-FILE OUTPUT GOOD-FILE ERROR-FILE
           MOVE 0 TO RX-FLAG-1
           PERFORM UNTIL RX-FLAG-1 = 1
               IF END-FLAG = "Y"
                   MOVE 1 TO RX-FLAG-1
               ELSE
                   READ CLAIM-FILE
                       AT END
                           MOVE "Y" TO END-FLAG
                       NOT AT END
                           MOVE 0 TO ERROR-CODE
                           PERFORM CHECK-CLAIM
                           IF ERROR-CODE = 0
                               PERFORM PAY-CLAIM
                           ELSE
                               PERFORM NOTE-FAULT
                               IF FAULTS-IN-A-ROW > 9
                               DISPLAY "TEN FAULTS IN A ROW: STOPPED"
                               MOVE 1 TO RX-FLAG-1
                               END-IF
                           END-IF
                   END-READ
               END-IF
           END-PERFORM
           CLOSE CLAIM-FILE GOOD-FILE ERROR-FILE
           DISPLAY "GOOD " GOOD-COUNT ", FAULTY " FAULT-COUNT ", PAID "
               PAID-TOTAL
           STOP RUN.
       CHECK-CLAIM.
           IF NOT (IS-KNOWN)
               MOVE 10 TO ERROR-CODE
           ELSE
               PERFORM CHECK-NUMBER
               IF ERROR-CODE NOT = 0
                   CONTINUE
               ELSE
                   PERFORM CHECK-DATE
                   IF ERROR-CODE NOT = 0
                       CONTINUE
                   ELSE
                       EVALUATE TRUE
                           WHEN CLAIM-AMOUNT NOT NUMERIC
                               MOVE 40 TO ERROR-CODE
                           WHEN CLAIM-AMOUNT = 0
                               MOVE 41 TO ERROR-CODE
                           WHEN IS-MOTOR AND CLAIM-AMOUNT > 20000
                               MOVE 42 TO ERROR-CODE
                           WHEN OTHER
                               CONTINUE
                       END-EVALUATE
                   END-IF
               END-IF
           END-IF.
       CHECK-NUMBER.
           MOVE 1 TO CHARACTER-AT
           MOVE 0 TO RX-FLAG-2
           PERFORM UNTIL RX-FLAG-2 = 1
               IF CHARACTER-AT > 5
                   MOVE 1 TO RX-FLAG-2
               ELSE
                   IF POLICY-NUMBER (CHARACTER-AT:1) NOT NUMERIC
                       MOVE 20 TO ERROR-CODE
                       MOVE 1 TO RX-FLAG-2
                   ELSE
                       ADD 1 TO CHARACTER-AT
                   END-IF
               END-IF
           END-PERFORM
           IF ERROR-CODE = 0 AND POLICY-NUMBER = "00000"
               MOVE 21 TO ERROR-CODE
           END-IF.
       CHECK-DATE.
           IF CLAIM-DAY NOT NUMERIC OR CLAIM-MONTH NOT NUMERIC
               MOVE 30 TO ERROR-CODE
           ELSE
               IF NOT (MONTH-OF-YEAR) OR NOT (DAY-OF-MONTH)
                   MOVE 31 TO ERROR-CODE
               ELSE
                   IF SHORT-MONTH AND CLAIM-DAY > 30
                       MOVE 32 TO ERROR-CODE
                   END-IF
                   IF CLAIM-MONTH = 2 AND CLAIM-DAY > 29
                       MOVE 32 TO ERROR-CODE
                   END-IF
               END-IF
           END-IF.
       PAY-CLAIM.
           MOVE CLAIM-IN TO GOOD-IMAGE
           EVALUATE POLICY-TYPE
               WHEN "H"
                   MOVE 100 TO GOOD-EXCESS
               WHEN "M"
                   DIVIDE 10 INTO CLAIM-AMOUNT GIVING GOOD-EXCESS
                       ROUNDED
               WHEN OTHER
                   MOVE 50 TO GOOD-EXCESS
           END-EVALUATE
           IF GOOD-EXCESS > CLAIM-AMOUNT
               MOVE CLAIM-AMOUNT TO GOOD-EXCESS
           END-IF
           SUBTRACT GOOD-EXCESS FROM CLAIM-AMOUNT GIVING GOOD-PAID
           ADD GOOD-PAID TO PAID-TOTAL
           ADD 1 TO GOOD-COUNT
           MOVE 0 TO FAULTS-IN-A-ROW
           WRITE GOOD-OUT.
       NOTE-FAULT.
           MOVE CLAIM-IN TO ERROR-IMAGE
           WRITE ERROR-OUT
           ADD 1 TO FAULT-COUNT FAULTS-IN-A-ROW.
