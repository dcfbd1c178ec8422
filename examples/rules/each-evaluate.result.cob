       IDENTIFICATION DIVISION.
       PROGRAM-ID. CHOICES.
       DATA DIVISION.
       WORKING-STORAGE SECTION.
       01 HOUR PIC 9(2) VALUE 0.
       01 CLOSED PIC X VALUE "N".
           88 SHUT VALUE "Y".
       01 RX-NEVER-1 PIC 9 VALUE 0.
       PROCEDURE DIVISION.
       NEXT-HOUR.
           PERFORM UNTIL RX-NEVER-1 = 1
               EVALUATE HOUR
                   WHEN 0 THRU 6
                   WHEN 22 THRU 99
                       DISPLAY HOUR " NIGHT"
                   WHEN 12
                       IF SHUT
                           DISPLAY "NEVER"
                       ELSE
                           DISPLAY "NOON"
                       END-IF
                   WHEN NOT 13 THRU 99
                       DISPLAY HOUR " MORNING"
                   WHEN ANY
                       DISPLAY HOUR " AFTERNOON"
               END-EVALUATE
               EVALUATE TRUE
                   WHEN HOUR > 17
                       SET SHUT TO TRUE
                   WHEN HOUR > 8 AND HOUR < 12
                       DISPLAY "OPEN"
                   WHEN OTHER
                       CONTINUE
               END-EVALUATE
               EVALUATE FALSE
                   WHEN SHUT
                       ADD 5 TO HOUR
                   WHEN OTHER
                       DISPLAY "SHUT AT " HOUR
                       STOP RUN
               END-EVALUATE
           END-PERFORM
           STOP RUN.
