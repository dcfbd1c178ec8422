       IDENTIFICATION DIVISION.
       PROGRAM-ID. READ-ALL.
       ENVIRONMENT DIVISION.
       INPUT-OUTPUT SECTION.
       FILE-CONTROL.
           SELECT GUESTS ASSIGN TO "GUESTS.DAT".
       DATA DIVISION.
       FILE SECTION.
       FD GUESTS.
       01 GUEST PIC X(4).
       WORKING-STORAGE SECTION.
       01 RX-FLAG-1 PIC 9 VALUE 0.
       PROCEDURE DIVISION.
       OPEN-LIST.
           OPEN INPUT GUESTS
           MOVE 0 TO RX-FLAG-1
           PERFORM UNTIL RX-FLAG-1 = 1
               READ GUESTS
                   AT END
                       MOVE 1 TO RX-FLAG-1
                   NOT AT END
                       DISPLAY GUEST
               END-READ
           END-PERFORM
           CLOSE GUESTS
           STOP RUN.
