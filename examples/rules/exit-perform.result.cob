       IDENTIFICATION DIVISION.
       PROGRAM-ID. EXIT-LOOP.
       DATA DIVISION.
       WORKING-STORAGE SECTION.
       01 STAIRS PIC 9 VALUE 0.
       01 RX-FLAG-1 PIC 9 VALUE 0.
       PROCEDURE DIVISION.
       CLIMB.
           MOVE 0 TO RX-FLAG-1
           PERFORM UNTIL RX-FLAG-1 = 1
               IF STAIRS = 5
                   MOVE 1 TO RX-FLAG-1
               ELSE
                   ADD 1 TO STAIRS
                   IF STAIRS = 3
                       MOVE 1 TO RX-FLAG-1
                   ELSE
                       DISPLAY STAIRS
                   END-IF
               END-IF
           END-PERFORM
           DISPLAY "REST"
           STOP RUN.
