       identification division.
       Program-Id. T.
      * a comment, and then no line feed
       PROCEDURE DIVISION. A. DISPLAY 'I''S' STOP RUN.