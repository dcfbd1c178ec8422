       IDENTIFICATION DIVISION.
       PROGRAM-ID. TWO-ENDS.
       PROCEDURE DIVISION.
       MAIN-LINE.
           PERFORM SOUP THRU FISH.
           PERFORM SOUP THRU CHEESE.
           STOP RUN.
       SOUP.
           DISPLAY "SOUP".
       FISH.
           DISPLAY "FISH".
       CHEESE.
           DISPLAY "CHEESE".
