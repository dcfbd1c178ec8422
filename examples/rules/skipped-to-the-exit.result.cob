       IDENTIFICATION DIVISION.
       PROGRAM-ID. SKIPPED.
       DATA DIVISION.
       WORKING-STORAGE SECTION.
       01 MARKS PIC 9 VALUE 9.
       PROCEDURE DIVISION.
       MAIN-LINE.
           PERFORM GRADE
           STOP RUN.
       GRADE.
           IF MARKS = 0
               CONTINUE
           ELSE
               DISPLAY "PASSED"
               IF MARKS > 5
                   IF MARKS = 9
                       DISPLAY "WITH PRAISE"
                   ELSE
                       DISPLAY "WELL"
                   END-IF
               END-IF
           END-IF.
