       IDENTIFICATION DIVISION.
       PROGRAM-ID. EXIT-CALLED.
       DATA DIVISION.
       WORKING-STORAGE SECTION.
       01 RAIN PIC 9 VALUE 0.
       PROCEDURE DIVISION.
       TWO-DAYS.
           PERFORM BREAKFAST
           MOVE 1 TO RAIN
           PERFORM BREAKFAST
           STOP RUN.
       BREAKFAST.
           DISPLAY "BREAKFAST"
           IF RAIN = 1
               CONTINUE
           ELSE
               DISPLAY "WALK"
               DISPLAY "HOME"
           END-IF.
