       IDENTIFICATION DIVISION.
       PROGRAM-ID. T.
       DATA DIVISION.
       WORKING-STORAGE SECTION.
       01 N PIC 9 VALUE 2.
       01 M PIC 9 VALUE 0.
       PROCEDURE DIVISION.
       A.
           IF N = 1
               CONTINUE
           ELSE
               IF N = 2
                   IF M = 0
                       DISPLAY "NONE"
                   ELSE
                       DISPLAY "SOME"
                   END-IF
               END-IF
               EVALUATE N
                   WHEN 1
                       IF M = 0
                           DISPLAY "A"
                       ELSE
                           DISPLAY "B"
                       END-IF
                   WHEN 2
                       ADD 9 TO M
                           ON SIZE ERROR
                               DISPLAY "C"
                           NOT ON SIZE ERROR
                               DISPLAY "D"
                       END-ADD
                   WHEN OTHER
                       DISPLAY "E"
               END-EVALUATE
               DISPLAY "DONE"
           END-IF
           STOP RUN.
