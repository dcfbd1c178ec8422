       IDENTIFICATION DIVISION.
       PROGRAM-ID. LOANINT.
      *---------------------------------------------------------------
      * COPIES THE LOANS, AND CHARGES THREE MONTHS OF INTEREST TO EACH
      * IN THE COPY, IN PLACE.  WHAT ISN'T CHARGED STANDS IN THE AUDIT.
      *---------------------------------------------------------------
       ENVIRONMENT DIVISION.
       INPUT-OUTPUT SECTION.
       FILE-CONTROL.
           SELECT LOAN-FILE ASSIGN TO "LOANS.DAT".
           SELECT LOAN-COPY ASSIGN TO "LOANS.OUT"
               ORGANIZATION IS SEQUENTIAL ACCESS MODE IS SEQUENTIAL
               FILE STATUS IS COPY-STATUS.
           SELECT AUDIT-FILE ASSIGN TO "AUDIT.OUT".
       DATA DIVISION.
       FILE SECTION.
       FD  LOAN-FILE.
       01  LOAN-IN                 PIC X(30).
       FD  LOAN-COPY.
       01  LOAN-OUT                PIC X(30).
       FD  AUDIT-FILE.
       01  AUDIT-LINE              PIC X(20).
       WORKING-STORAGE SECTION.
       77  COPY-STATUS             PIC XX VALUE "00".
       77  INTEREST                PIC 9(6)V99.
       77  CHARGED                 PIC 9(4) VALUE 0.
       77  LEFT-ALONE              PIC 9(4) VALUE 0.
       01  LOAN.
           05  LOAN-NUMBER         PIC 9(4).
           05  LOAN-NAME           PIC X(12).
           05  LOAN-STATE          PIC X.
               88  IS-PAID         VALUE "P".
               88  IS-BAD          VALUE "B".
           05  BALANCE             PIC S9(6)V99
                                   SIGN IS TRAILING SEPARATE.
           05  RATE                PIC 9V999.
       01  AUDIT.
           05  LOAN-NUMBER         PIC 9(4).
           05  WHY                 PIC X(16).
       PROCEDURE DIVISION.
       MAIN-LINE SECTION.
       START-JOB.
           PERFORM COPY-LOANS THRU COPY-EXIT.
           OPEN I-O LOAN-COPY.
           OPEN EXTEND AUDIT-FILE.
           PERFORM WITH TEST AFTER UNTIL COPY-STATUS NOT = "00"
               READ LOAN-COPY INTO LOAN
                   AT END
                       DISPLAY "THAT WAS ALL: " WITH NO ADVANCING
                   NOT AT END
                       PERFORM CHARGE-LOAN
               END-READ
           END-PERFORM.
           CLOSE LOAN-COPY AUDIT-FILE.
           DISPLAY CHARGED " CHARGED, " LEFT-ALONE " LEFT ALONE".
           STOP RUN.
       COPY-LOANS.
           OPEN INPUT LOAN-FILE OUTPUT LOAN-COPY AUDIT-FILE.
           MOVE "LOANS LEFT ALONE" TO AUDIT-LINE.
           WRITE AUDIT-LINE.
       COPY-ONE.
           READ LOAN-FILE AT END GO TO COPY-END.
           WRITE LOAN-OUT FROM LOAN-IN.
           GO TO COPY-ONE.
       COPY-END.
           CLOSE LOAN-FILE LOAN-COPY AUDIT-FILE.
       COPY-EXIT.
           EXIT.
       CHARGE-LOAN SECTION.
       CHECK-LOAN.
           IF LOAN-NAME NOT ALPHABETIC
               MOVE "NAME" TO WHY
               GO TO NOT-CHARGED.
           IF IS-PAID OR BALANCE NOT POSITIVE
               EXIT SECTION.
           IF RATE NOT NUMERIC
               MOVE "RATE" TO WHY
               GO TO NOT-CHARGED.
       CHARGE-MONTHS.
           PERFORM 3 TIMES
               MULTIPLY BALANCE BY RATE GIVING INTEREST ROUNDED
                   ON SIZE ERROR
                       MOVE "INTEREST" TO WHY
                       GO TO NOT-CHARGED
               END-MULTIPLY
               ADD INTEREST TO BALANCE
                   ON SIZE ERROR
                       MOVE "BALANCE" TO WHY
                       GO TO NOT-CHARGED
               END-ADD
           END-PERFORM.
           ADD 1 TO CHARGED.
           REWRITE LOAN-OUT FROM LOAN.
           EXIT SECTION.
       NOT-CHARGED.
           SET IS-BAD TO TRUE.
           MOVE LOAN-NUMBER OF LOAN TO LOAN-NUMBER OF AUDIT.
           WRITE AUDIT-LINE FROM AUDIT.
           REWRITE LOAN-OUT FROM LOAN.
           ADD 1 TO LEFT-ALONE.
