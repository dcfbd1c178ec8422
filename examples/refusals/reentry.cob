       IDENTIFICATION DIVISION.
       PROGRAM-ID. REENTRY.
       PROCEDURE DIVISION.
       MAIN-LINE.
           PERFORM ONE.
           STOP RUN.
       ONE.
           PERFORM TWO 2 TIMES.
       TWO.
           PERFORM ONE.
