       IDENTIFICATION DIVISION.
       PROGRAM-ID. LISTED.
       ENVIRONMENT DIVISION.
       INPUT-OUTPUT SECTION.
       FILE-CONTROL.
           SELECT NAMES ASSIGN TO "NAMES.DAT".
       DATA DIVISION.
       FILE SECTION.
       FD NAMES.
       01 NAME-LINE PIC X(20).
       WORKING-STORAGE SECTION.
       01 RX-FLAG-1 PIC 9 VALUE 0.
       PROCEDURE DIVISION.
       START-HERE.
           OPEN INPUT NAMES
           MOVE 0 TO RX-FLAG-1
           PERFORM UNTIL RX-FLAG-1 = 1
               READ NAMES
                   AT END
                       MOVE 1 TO RX-FLAG-1
                   NOT AT END
                       IF NAME-LINE = SPACE
                           CONTINUE
                       ELSE
                           DISPLAY NAME-LINE
                       END-IF
               END-READ
           END-PERFORM
           CLOSE NAMES
           STOP RUN.
