       IDENTIFICATION DIVISION.
       PROGRAM-ID. SHARED.
       PROCEDURE DIVISION.
       START-HERE.
           PERFORM FIRST-ONE
           PERFORM RX-PARA-1
           STOP RUN.
       FIRST-ONE.
           DISPLAY "FIRST".
       RX-PARA-1.
           DISPLAY "FIRST"
           DISPLAY "LAST".
