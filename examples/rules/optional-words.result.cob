       IDENTIFICATION DIVISION.
       PROGRAM-ID. T.
       ENVIRONMENT DIVISION.
       INPUT-OUTPUT SECTION.
       FILE-CONTROL.
           SELECT F ASSIGN TO "F.DAT".
       DATA DIVISION.
       FILE SECTION.
       FD F.
       01 R PIC X(4).
       WORKING-STORAGE SECTION.
       01 N PIC S9(2) SIGN TRAILING SEPARATE VALUE -1.
           88 SMALL VALUE 1 THRU 3 7.
       01 M PIC 9 VALUE 1.
       PROCEDURE DIVISION.
       A.
           OPEN INPUT F
           CLOSE F
           OPEN I-O F
           READ F
               AT END
                   CONTINUE
               NOT AT END
                   IF (R = SPACE OR R = LOW-VALUE) OR R < LOW-VALUE
                       DISPLAY "BARE"
                   END-IF
                   REWRITE R
                   CLOSE F
                   OPEN EXTEND F
                   WRITE R FROM "LAST"
                   CLOSE F
                   IF N <= M OR N >= 8
                       DISPLAY "FAR"
                   END-IF
                   IF (N <= 5 AND N >= 0) AND N NOT = M
                       DISPLAY "NEAR"
                   END-IF
                   MOVE ZERO TO M
                   PERFORM UNTIL M = 3
                       ADD 1 TO M
                       DISPLAY M WITH NO ADVANCING
                   END-PERFORM
           END-READ
           STOP RUN.
