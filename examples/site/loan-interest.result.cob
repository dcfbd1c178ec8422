       IDENTIFICATION DIVISION.
       PROGRAM-ID. LOANINT.
       ENVIRONMENT DIVISION.
       INPUT-OUTPUT SECTION.
       FILE-CONTROL.
           SELECT LOAN-FILE ASSIGN TO "LOANS.DAT".
           SELECT LOAN-COPY ASSIGN TO "LOANS.OUT" FILE STATUS IS
               COPY-STATUS.
           SELECT AUDIT-FILE ASSIGN TO "AUDIT.OUT".
       DATA DIVISION.
       FILE SECTION.
       FD LOAN-FILE.
       01 LOAN-IN PIC X(30).
       FD LOAN-COPY.
       01 LOAN-OUT PIC X(30).
       FD AUDIT-FILE.
       01 AUDIT-LINE PIC X(20).
       WORKING-STORAGE SECTION.
       77 COPY-STATUS PIC X(2) VALUE "00".
       77 INTEREST PIC 9(6)V9(2).
       77 CHARGED PIC 9(4) VALUE 0.
       77 LEFT-ALONE PIC 9(4) VALUE 0.
       01 LOAN.
           05 LOAN-NUMBER PIC 9(4).
           05 LOAN-NAME PIC X(12).
           05 LOAN-STATE PIC X.
           88 IS-PAID VALUE "P".
           88 IS-BAD VALUE "B".
           05 BALANCE PIC S9(6)V9(2) SIGN TRAILING SEPARATE.
           05 RATE PIC 9V9(3).
       01 AUDIT.
           05 LOAN-NUMBER PIC 9(4).
           05 WHY PIC X(16).
       01 RX-FLAG-1 PIC 9 VALUE 0.
       01 RX-STATE-1 PIC 9(6) VALUE 0.
       01 RX-COUNT-1 PIC S9(18) VALUE 0.
       01 RX-EXIT-1 PIC 9(6) VALUE 0.
       PROCEDURE DIVISION.
       START-JOB.
           PERFORM COPY-LOANS
           OPEN I-O LOAN-COPY
           OPEN EXTEND AUDIT-FILE
           PERFORM WITH TEST AFTER UNTIL COPY-STATUS NOT = "00"
               READ LOAN-COPY INTO LOAN
                   AT END
                       DISPLAY "THAT WAS ALL: " WITH NO ADVANCING
                   NOT AT END
                       PERFORM CHECK-LOAN
               END-READ
           END-PERFORM
           CLOSE LOAN-COPY AUDIT-FILE
           DISPLAY CHARGED " CHARGED, " LEFT-ALONE " LEFT ALONE"
           STOP RUN.
       COPY-LOANS.
           OPEN INPUT LOAN-FILE OUTPUT LOAN-COPY AUDIT-FILE
           MOVE "LOANS LEFT ALONE" TO AUDIT-LINE
           WRITE AUDIT-LINE
           MOVE 0 TO RX-FLAG-1
           PERFORM UNTIL RX-FLAG-1 = 1
               READ LOAN-FILE
                   AT END
                       MOVE 1 TO RX-FLAG-1
                   NOT AT END
                       WRITE LOAN-OUT FROM LOAN-IN
               END-READ
           END-PERFORM
           CLOSE LOAN-FILE LOAN-COPY AUDIT-FILE.
       CHECK-LOAN.
           MOVE 1 TO RX-STATE-1
           PERFORM UNTIL RX-STATE-1 = 0
               EVALUATE RX-STATE-1
                   WHEN 1
                       IF LOAN-NAME NOT ALPHABETIC
                           MOVE "NAME" TO WHY
                           MOVE 2 TO RX-STATE-1
                       ELSE
                           IF IS-PAID OR BALANCE NOT POSITIVE
                               MOVE 0 TO RX-STATE-1
                           ELSE
                               IF RATE NOT NUMERIC
                               MOVE "RATE" TO WHY
                               MOVE 2 TO RX-STATE-1
                               ELSE
                               MOVE 3 TO RX-COUNT-1
                               MOVE 0 TO RX-EXIT-1
                               PERFORM UNTIL RX-EXIT-1 > 0
                               IF RX-COUNT-1 > 0
                               SUBTRACT 1 FROM RX-COUNT-1
                               MULTIPLY BALANCE BY RATE GIVING INTEREST
                                   ROUNDED
                               ON SIZE ERROR
                               MOVE "INTEREST" TO WHY
                               MOVE 1 TO RX-EXIT-1
                               NOT ON SIZE ERROR
                               ADD INTEREST TO BALANCE
                               ON SIZE ERROR
                               MOVE "BALANCE" TO WHY
                               MOVE 1 TO RX-EXIT-1
                               END-ADD
                               END-MULTIPLY
                               ELSE
                               ADD 1 TO CHARGED
                               REWRITE LOAN-OUT FROM LOAN
                               MOVE 2 TO RX-EXIT-1
                               END-IF
                               END-PERFORM
                               EVALUATE RX-EXIT-1
                               WHEN 1
                               MOVE 2 TO RX-STATE-1
                               WHEN OTHER
                               MOVE 0 TO RX-STATE-1
                               END-EVALUATE
                               END-IF
                           END-IF
                       END-IF
                   WHEN 2
                       SET IS-BAD TO TRUE
                       MOVE LOAN-NUMBER OF LOAN TO LOAN-NUMBER OF AUDIT
                       WRITE AUDIT-LINE FROM AUDIT
                       REWRITE LOAN-OUT FROM LOAN
                       ADD 1 TO LEFT-ALONE
                       MOVE 0 TO RX-STATE-1
               END-EVALUATE
           END-PERFORM.
