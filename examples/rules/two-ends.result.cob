       IDENTIFICATION DIVISION.
       PROGRAM-ID. TWO-ENDS.
       PROCEDURE DIVISION.
       MAIN-LINE.
           PERFORM SOUP
           PERFORM RX-PARA-1
           STOP RUN.
       SOUP.
           DISPLAY "SOUP"
           DISPLAY "FISH".
       RX-PARA-1.
           DISPLAY "SOUP"
           DISPLAY "FISH"
           DISPLAY "CHEESE".
