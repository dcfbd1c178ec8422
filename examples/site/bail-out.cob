       IDENTIFICATION DIVISION.
       PROGRAM-ID. POSTING.
      *---------------------------------------------------------------
      * POSTS PAYMENTS.  A PAYMENT WITHOUT AN ACCOUNT ISN'T POSTED.
      *---------------------------------------------------------------
       ENVIRONMENT DIVISION.
       INPUT-OUTPUT SECTION.
       FILE-CONTROL.
           SELECT PAYMENTS ASSIGN TO "PAYMENTS.DAT".
           SELECT POSTINGS ASSIGN TO "POSTINGS.OUT".
       DATA DIVISION.
       FILE SECTION.
       FD  PAYMENTS.
       01  PAYMENT.
           05  PAY-ACCOUNT         PIC X(6).
           05  PAY-AMOUNT          PIC 9(6).
       FD  POSTINGS.
       01  POSTING                 PIC X(12).
       WORKING-STORAGE SECTION.
       77  REJECTED                PIC 9(4) VALUE 0.
       77  POSTED                  PIC 9(4) VALUE 0.
       PROCEDURE DIVISION.
       START-OF-JOB.
           OPEN INPUT PAYMENTS OUTPUT POSTINGS.
       READ-PAYMENT.
           READ PAYMENTS AT END GO TO END-OF-JOB.
           PERFORM POST-PAYMENT THRU POST-EXIT.
           GO TO READ-PAYMENT.
       END-OF-JOB.
           CLOSE PAYMENTS POSTINGS.
           DISPLAY "POSTED " POSTED " REJECTED " REJECTED.
           STOP RUN.
       POST-PAYMENT.
           IF PAY-ACCOUNT NOT = SPACES GO TO POST-IT.
           ADD 1 TO REJECTED.
      *        THE MISTAKE: POST-EXIT WAS MEANT
           GO TO READ-PAYMENT.
       POST-IT.
           WRITE POSTING FROM PAYMENT.
           ADD 1 TO POSTED.
       POST-EXIT.
           EXIT.
