       IDENTIFICATION DIVISION.
       PROGRAM-ID. EXIT-PARA.
       DATA DIVISION.
       WORKING-STORAGE SECTION.
       01 AGE PIC 9(2) VALUE 17.
       PROCEDURE DIVISION.
       MAIN-LINE.
           PERFORM ASK-AGE
           ADD 1 TO AGE
           PERFORM ASK-AGE
           STOP RUN.
       ASK-AGE.
           IF AGE < 18
               DISPLAY "HALF"
           ELSE
               DISPLAY "FULL"
           END-IF
           DISPLAY "PRICE".
