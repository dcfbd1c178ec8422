       IDENTIFICATION DIVISION.
       PROGRAM-ID. MIDDLE.
       DATA DIVISION.
       WORKING-STORAGE SECTION.
       01 N PIC 9(2) VALUE 3.
       01 RX-FLAG-1 PIC 9 VALUE 0.
       PROCEDURE DIVISION.
       COUNT-DOWN.
           MOVE 0 TO RX-FLAG-1
           PERFORM UNTIL RX-FLAG-1 = 1
               DISPLAY N
               IF N = 1
                   MOVE 1 TO RX-FLAG-1
               ELSE
                   SUBTRACT 1 FROM N
               END-IF
           END-PERFORM
           DISPLAY "GO"
           STOP RUN.
