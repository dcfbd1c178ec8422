       IDENTIFICATION DIVISION.
       PROGRAM-ID. PAGES.
      *---------------------------------------------------------------
      * LISTS NAMES, NINE ON A PAGE, AT MOST THREE PAGES.
      *---------------------------------------------------------------
       ENVIRONMENT DIVISION.
       INPUT-OUTPUT SECTION.
       FILE-CONTROL.
           SELECT NAMES ASSIGN TO "NAMES.DAT".
       DATA DIVISION.
       FILE SECTION.
       FD  NAMES.
       01  NAME-RECORD             PIC X(20).
       WORKING-STORAGE SECTION.
       77  LINES-LEFT              PIC 99 VALUE 0.
       77  PAGE-NUMBER             PIC 99 VALUE 0.
       77  SKIPPED                 PIC 9(4) VALUE 0.
       PROCEDURE DIVISION.
       BEGIN-LIST.
           OPEN INPUT NAMES.
       NEXT-NAME.
           READ NAMES AT END GO TO END-LIST.
           PERFORM PRINT-NAME THRU PRINT-EXIT.
           GO TO NEXT-NAME.
       END-LIST.
           CLOSE NAMES.
           DISPLAY "SKIPPED " SKIPPED.
           STOP RUN.
       PRINT-NAME.
           IF LINES-LEFT = 0 PERFORM NEW-PAGE THRU NEW-PAGE-EXIT.
           DISPLAY NAME-RECORD.
           SUBTRACT 1 FROM LINES-LEFT.
       PRINT-EXIT.
           EXIT.
       NEW-PAGE.
           IF PAGE-NUMBER = 3
               ADD 1 TO SKIPPED
      *            THE MISTAKE: OUT OF ONE RANGE TO THE EXIT OF ANOTHER
               GO TO PRINT-EXIT.
           ADD 1 TO PAGE-NUMBER.
           DISPLAY "PAGE " PAGE-NUMBER.
           MOVE 9 TO LINES-LEFT.
       NEW-PAGE-EXIT.
           EXIT.
