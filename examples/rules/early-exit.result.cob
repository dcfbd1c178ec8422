       IDENTIFICATION DIVISION.
       PROGRAM-ID. EARLY.
       DATA DIVISION.
       WORKING-STORAGE SECTION.
       01 N PIC 9 VALUE 2.
       PROCEDURE DIVISION.
       START-HERE.
           PERFORM CHECK-ONE
           ADD 7 TO N
           PERFORM CHECK-ONE
           STOP RUN.
       CHECK-ONE.
           IF N < 5
               CONTINUE
           ELSE
               DISPLAY "LARGE"
               IF N = 9
                   DISPLAY "NINE"
               END-IF
           END-IF.
