       IDENTIFICATION DIVISION.
       PROGRAM-ID. PHASES.
       DATA DIVISION.
       WORKING-STORAGE SECTION.
       01 PHASE PIC 9 VALUE 0.
       01 RX-STATE-1 PIC 9(6) VALUE 0.
       PROCEDURE DIVISION.
       MAIN-LINE.
           PERFORM DO-PHASE VARYING PHASE FROM 0 BY 1 UNTIL PHASE > 4
           STOP RUN.
       DO-PHASE.
           MOVE 1 TO RX-STATE-1
           PERFORM UNTIL RX-STATE-1 = 0
               EVALUATE RX-STATE-1
                   WHEN 1
                       EVALUATE PHASE
                           WHEN 1
                               DISPLAY "WASH"
                               MOVE 2 TO RX-STATE-1
                           WHEN 2
                               MOVE 2 TO RX-STATE-1
                           WHEN 3
                               MOVE 3 TO RX-STATE-1
                           WHEN OTHER
                               DISPLAY "NO PHASE " PHASE
                               MOVE 3 TO RX-STATE-1
                       END-EVALUATE
                   WHEN 2
                       DISPLAY "RINSE"
                       MOVE 3 TO RX-STATE-1
                   WHEN 3
                       MOVE 0 TO RX-STATE-1
               END-EVALUATE
           END-PERFORM.
