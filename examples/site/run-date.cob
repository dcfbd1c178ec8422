       IDENTIFICATION DIVISION.
       PROGRAM-ID. DATED.
       ENVIRONMENT DIVISION.
       DATA DIVISION.
       WORKING-STORAGE SECTION.
       01  RUN-DATE.
           05  RUN-YEAR            PIC 99.
           05  RUN-MONTH           PIC 99.
           05  RUN-DAY             PIC 99.
       PROCEDURE DIVISION.
       FIND-DATE.
           ACCEPT RUN-DATE FROM DATE.
           IF RUN-MONTH = 12 GO TO YEAR-END.
           DISPLAY "NOT THE YEAR'S END".
           STOP RUN.
       YEAR-END.
           DISPLAY "THE YEAR'S END".
           STOP RUN.
