       IDENTIFICATION DIVISION.
       PROGRAM-ID. EXIT-PARA.
       DATA DIVISION.
       WORKING-STORAGE SECTION.
       01 AGE PIC 99 VALUE 17.
       PROCEDURE DIVISION.
       MAIN-LINE.
           PERFORM ASK-AGE THRU SAY-PRICE.
           ADD 1 TO AGE.
           PERFORM ASK-AGE THRU SAY-PRICE.
           STOP RUN.
       ASK-AGE.
           IF AGE < 18
               DISPLAY "HALF"
               EXIT PARAGRAPH
           END-IF.
           DISPLAY "FULL".
       SAY-PRICE.
           DISPLAY "PRICE".
