       IDENTIFICATION DIVISION.
       PROGRAM-ID. BACKWARD.
       PROCEDURE DIVISION.
       MAIN-LINE.
           PERFORM ROOF THRU CELLAR.
           STOP RUN.
       CELLAR.
           DISPLAY "CELLAR".
       FLOOR-ONE.
           DISPLAY "FLOOR ONE".
       ROOF.
           DISPLAY "ROOF".
           GO TO CELLAR.
