       IDENTIFICATION DIVISION.
       PROGRAM-ID. NEVER-BACK.
       PROCEDURE DIVISION.
       MAIN-LINE.
           PERFORM CHECK-IN.
           STOP RUN.
       CHECK-IN.
           PERFORM FIND-ROOM.
       FIND-ROOM.
           GO TO FULL-HOUSE.
       HAND-OVER-KEY.
           DISPLAY "HERE IS YOUR KEY".
       FULL-HOUSE.
           DISPLAY "WE ARE FULL".
           STOP RUN.
