       IDENTIFICATION DIVISION.
       PROGRAM-ID. P.
       DATA DIVISION.
       WORKING-STORAGE SECTION.
       01 G.
           05 B PIC S9(5)V9(2).
       01 T.
           05 A PIC X(9) OCCURS 3.
       01 I PIC 9 VALUE 1.
       01 WWWWWWWWWWWWWWWWWWWWWW PIC X.
       01 WWWWWWWWWWWWWWWWWWWWWWWWWWW PIC X.
       01 WWWWWWWWWWWWWWWWWWWWWWWWWWWW PIC X.
       01 WWWWWWWWWWWWWWWWWWWWWWWWWWWWW PIC X.
       01 WWWWWWWWWWWWWWWWWWWWWWWWWWWWWW PIC X.
       PROCEDURE DIVISION.
       MAIN-LINE.
           PERFORM P-1
           PERFORM P-2
           PERFORM P-3
           PERFORM P-4
           PERFORM P-5
           PERFORM P-6
           PERFORM P-7
           PERFORM P-8
           PERFORM P-9
           PERFORM P-10
           PERFORM P-11
           PERFORM P-12
           PERFORM P-13
           PERFORM P-14
           PERFORM P-15
           PERFORM P-16
           PERFORM P-17
           PERFORM P-18
           PERFORM P-19
           PERFORM P-20
           PERFORM P-21
           PERFORM P-22
           PERFORM P-23
           PERFORM P-24
           PERFORM P-25
           PERFORM P-26
           PERFORM P-27
           PERFORM P-28
           PERFORM P-29
           STOP RUN.
       P-1.
           DISPLAY "x".
       P-2.
           DISPLAY """".
       P-3.
           DISPLAY "xxxxxxxxxxxxxxxxxxxxxxxxxxxxxxxxxxxxxxxxxxxxxxxxx".
       P-4.
           DISPLAY "xxxxxxxxxxxxxxxxxxxxxxxxxxxxxxxxxxxxxxxxxxxxxxxxxx".
       P-5.
           DISPLAY "xxxxxxxxxxxxxxxxxxxxxxxxxxxxxxxxxxxxxxxxxxxxxxxxxxx"
               .
       P-6.
           DISPLAY
               "xxxxxxxxxxxxxxxxxxxxxxxxxxxxxxxxxxxxxxxxxxxxxxxxxxxx".
       P-7.
           DISPLAY
               "xxxxxxxxxxxxxxxxxxxxxxxxxxxxxxxxxxxxxxxxxxxxxxxxxxxxxxx"
               .
       P-8.
           DISPLAY
           "xxxxxxxxxxxxxxxxxxxxxxxxxxxxxxxxxxxxxxxxxxxxxxxxxxxxxxxx".
       P-9.
           DISPLAY
           "xxxxxxxxxxxxxxxxxxxxxxxxxxxxxxxxxxxxxxxxxxxxxxxxxxxxxxxxx".
       P-10.
           DISPLAY
           "xxxxxxxxxxxxxxxxxxxxxxxxxxxxxxxxxxxxxxxxxxxxxxxxxxxxxxxxxx".
       P-11.
           DISPLAY
           "xxxxxxxxxxxxxxxxxxxxxxxxxxxxxxxxxxxxxxxxxxxxxxxxxxxxxxxxx"""
               .
       P-12.
           DISPLAY
           "xxxxxxxxxxxxxxxxxxxxxxxxxxxxxxxxxxxxxxxxxxxxxxxxxxxxxxxxxxx"
               .
       P-13.
           DISPLAY
           "xxxxxxxxxxxxxxxxxxxxxxxxxxxxxxxxxxxxxxxxxxxxxxxxxxxxxxxxxxxx
      -    "".
       P-14.
           DISPLAY
           "xxxxxxxxxxxxxxxxxxxxxxxxxxxxxxxxxxxxxxxxxxxxxxxxxxxxxxxxxx""
      -    "x".
       P-15.
           DISPLAY
           "xxxxxxxxxxxxxxxxxxxxxxxxxxxxxxxxxxxxxxxxxxxxxxxxxxxxxxxxxxx"
      -    "".
       P-16.
           DISPLAY
           "xxxxxxxxxxxxxxxxxxxxxxxxxxxxxxxxxxxxxxxxxxxxxxxxxxxxxxxxxxx"
      -    "x".
       P-17.
           DISPLAY
           "xxxxxxxxxxxxxxxxxxxxxxxxxxxxxxxxxxxxxxxxxxxxxxxxxxxxxxxxxxxx
      -    """".
       P-18.
           DISPLAY
           "xxxxxxxxxxxxxxxxxxxxxxxxxxxxxxxxxxxxxxxxxxxxxxxxxxxxxxxxxxx"
      -    "xxxxxxxxxxxxxxxxxxxxxxxxxxxxxxxxxxxxxxxxxxxxxxxxxxxxx".
       P-19.
           DISPLAY
           "xxxxxxxxxxxxxxxxxxxxxxxxxxxxxxxxxxxxxxxxxxxxxxxxxxxxxxxxxxxx
      -    "xxxxxxxxxxxxxxxxxxxxxxxxxxxxxxxxxxxxxxxxxxxxxxxxxxxxxxxxxxx"
               .
       P-20.
           DISPLAY
           "xxxxxxxxxxxxxxxxxxxxxxxxxxxxxxxxxxxxxxxxxxxxxxxxxxxxxxxxxxx"
      -    "xxxxxxxxxxxxxxxxxxxxxxxxxxxxxxxxxxxxxxxxxxxxxxxxxxxxxxxxxxx"
      -    "".
       P-21.
           DISPLAY
           "xxxxxxxxxxxxxxxxxxxxxxxxxxxxxxxxxxxxxxxxxxxxxxxxxxxxxxxxxx""
      -    """""xxxxxxxxxxxxxxxxxxxxxxxxxxxxxxxxxxxxxxxxxxxxxxxxxxxxxxxx
      -    "xxxx".
       P-22.
           DISPLAY
           "xxxxxxxxxxxxxxxxxxxxxxxxxxxxxxxxxxxxxxxxxxxxxxxxxxxxxxxxxxx"
      -    "xxxxxxxxxxxxxxxxxxxxxxxxxxxxxxxxxxxxxxxxxxxxxxxxxxxxxxxxxx""
      -    """xxxxxxxxxxxxxxxxxxxxxxxxxxxxxxxxxxxxxxxx".
       P-23.
           DISPLAY WWWWWWWWWWWWWWWWWWWWWW WWWWWWWWWWWWWWWWWWWWWWWWWWW.
       P-24.
           DISPLAY WWWWWWWWWWWWWWWWWWWWWW WWWWWWWWWWWWWWWWWWWWWWWWWWWW.
       P-25.
           DISPLAY WWWWWWWWWWWWWWWWWWWWWW WWWWWWWWWWWWWWWWWWWWWWWWWWWWW.
       P-26.
           DISPLAY WWWWWWWWWWWWWWWWWWWWWW WWWWWWWWWWWWWWWWWWWWWWWWWWWWWW
               .
       P-27.
           MOVE A (I + 1) (2:3) TO B.
       P-28.
           IF I = 1
               IF I = 1
                   IF I = 1
                       IF I = 1
                           IF I = 1
                               DISPLAY
                                   "xxxxxxxxxxxxxxxxxxxxxxxxxxxxxxxxx"
                                   WWWWWWWWWWWWWWWWWWWWWWWWWWWWWW
                           END-IF
                       END-IF
                   END-IF
               END-IF
           END-IF.
       P-29.
           IF I = 1
               IF I = 1
                   IF I = 1
                       IF I = 1
                           IF I = 1
                               DISPLAY
                                   "xxxxxxxxxxxxxxxxxxxxxxxxxxxxxxxxxx"
                                   WWWWWWWWWWWWWWWWWWWWWWWWWWWWWW
                           END-IF
                       END-IF
                   END-IF
               END-IF
           END-IF.
