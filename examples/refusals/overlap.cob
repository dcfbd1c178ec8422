       IDENTIFICATION DIVISION.
       PROGRAM-ID. OVERLAP.
       DATA DIVISION.
       WORKING-STORAGE SECTION.
       01 N PIC 9 VALUE 0.
       PROCEDURE DIVISION.
       MAIN-LINE.
           PERFORM READ-ALL THRU READ-EXIT.
           STOP RUN.
       READ-ALL.
           PERFORM SHOW-ONE.
           IF N = 1 PERFORM BAD-ONE.
       READ-EXIT.
           EXIT.
       BAD-ONE.
           DISPLAY "BAD".
           GO TO READ-EXIT.
       SHOW-ONE.
           DISPLAY N.
