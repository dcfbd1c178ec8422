       IDENTIFICATION DIVISION.
       PROGRAM-ID. TURNS.
       DATA DIVISION.
       WORKING-STORAGE SECTION.
       01 N PIC 9 VALUE 2.
       01 K PIC 9 VALUE 0.
       PROCEDURE DIVISION.
       START-HERE.
           PERFORM KNOCK N TIMES
           PERFORM RX-PARA-1 UNTIL K = 4
           PERFORM RX-PARA-1 WITH TEST AFTER UNTIL K = 5
           PERFORM WAIT-A-LITTLE VARYING N FROM 7 BY -2 UNTIL N < 3
           PERFORM WITH TEST AFTER VARYING K FROM 1 BY 1 UNTIL K > 2
               DISPLAY "RING " K
           END-PERFORM
           STOP RUN.
       KNOCK.
           ADD 1 TO K
           DISPLAY "KNOCK " K.
       RX-PARA-1.
           ADD 1 TO K
           DISPLAY "KNOCK " K
           IF N = 5
               CONTINUE
           ELSE
               DISPLAY "WAIT " N
           END-IF.
       WAIT-A-LITTLE.
           IF N = 5
               CONTINUE
           ELSE
               DISPLAY "WAIT " N
           END-IF.
