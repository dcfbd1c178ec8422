       IDENTIFICATION DIVISION.
       PROGRAM-ID. ARREARS.
       ENVIRONMENT DIVISION.
       INPUT-OUTPUT SECTION.
       FILE-CONTROL.
           SELECT RENTS ASSIGN TO "RENTS.DAT".
       DATA DIVISION.
       FILE SECTION.
       FD RENTS.
       01 RENT.
           05 TENANT PIC X(12).
           05 DUE PIC 9(4).
           05 PAID PIC 9(4).
       WORKING-STORAGE SECTION.
       77 OWED PIC 9(4).
       77 TENANTS-LATE PIC 9(4) VALUE 0.
       01 RX-FLAG-1 PIC 9 VALUE 0.
       PROCEDURE DIVISION.
       MAIN-LINE.
           OPEN INPUT RENTS
           MOVE 0 TO RX-FLAG-1
           PERFORM UNTIL RX-FLAG-1 = 1
               READ RENTS
                   AT END
                       MOVE 1 TO RX-FLAG-1
                   NOT AT END
                       PERFORM LOOK-AT-RENT
               END-READ
           END-PERFORM
           CLOSE RENTS
           DISPLAY "LATE: " TENANTS-LATE
           STOP RUN.
       LOOK-AT-RENT.
           IF PAID >= DUE
               CONTINUE
           ELSE
               SUBTRACT PAID FROM DUE GIVING OWED
               IF OWED < 10
                   DISPLAY TENANT " IS SHORT"
               ELSE
                   ADD 1 TO TENANTS-LATE
                   DISPLAY TENANT " OWES " OWED
               END-IF
           END-IF.
