       IDENTIFICATION DIVISION.
       PROGRAM-ID. FINES.
       ENVIRONMENT DIVISION.
       INPUT-OUTPUT SECTION.
       FILE-CONTROL.
           SELECT LATE-BOOKS ASSIGN TO "LATE.DAT" FILE STATUS IS
               LATE-STATE.
           SELECT BILLS ASSIGN TO "BILLS.DAT".
       DATA DIVISION.
       FILE SECTION.
       FD LATE-BOOKS.
       01 LATE-BOOK.
           05 READER PIC X(6).
           05 DAYS-LATE PIC 9(2).
           05 DAY-FINE PIC 9V9(2).
       FD BILLS.
       01 BILL.
           05 BILL-READER PIC X(6).
           05 BILL-FINE PIC 9(4)V9(2).
       WORKING-STORAGE SECTION.
       77 LATE-STATE PIC X(2).
       77 FINES-IN-ALL PIC 9(6)V9(2) VALUE 0.
       77 LEFT-ASIDE PIC 9(3) VALUE 0.
       01 RX-FLAG-1 PIC 9 VALUE 0.
       PROCEDURE DIVISION.
       OPEN-UP.
           OPEN INPUT LATE-BOOKS
           IF LATE-STATE NOT = "00"
               DISPLAY "NO LATE BOOKS"
           ELSE
               OPEN OUTPUT BILLS
               MOVE 0 TO RX-FLAG-1
               PERFORM UNTIL RX-FLAG-1 = 1
                   READ LATE-BOOKS
                       AT END
                           MOVE 1 TO RX-FLAG-1
                       NOT AT END
                           PERFORM LOOK-AT-BOOK
                   END-READ
               END-PERFORM
               DISPLAY "FINES " FINES-IN-ALL ", LEFT ASIDE " LEFT-ASIDE
               CLOSE LATE-BOOKS BILLS
           END-IF
           STOP RUN.
       LOOK-AT-BOOK.
           IF DAYS-LATE NOT NUMERIC OR DAY-FINE NOT NUMERIC
               ADD 1 TO LEFT-ASIDE
           ELSE
               MOVE READER TO BILL-READER
               MULTIPLY DAYS-LATE BY DAY-FINE GIVING BILL-FINE
               ADD BILL-FINE TO FINES-IN-ALL
               WRITE BILL
           END-IF.
