       IDENTIFICATION DIVISION.
       PROGRAM-ID. RAINFALL.
       ENVIRONMENT DIVISION.
       INPUT-OUTPUT SECTION.
       FILE-CONTROL.
           SELECT RETURNS ASSIGN TO "RAIN.DAT".
           SELECT YEARBOOK ASSIGN TO "YEARBOOK.OUT".
       DATA DIVISION.
       FILE SECTION.
       FD RETURNS.
       01 RETURN-CARD.
           05 CARD-STATION PIC X(3).
           05 CARD-MONTH PIC 9(2).
           05 CARD-DAY PIC 9(2).
           05 CARD-RAIN PIC 9(3)V9.
           05 CARD-TEXT REDEFINES CARD-RAIN.
           10 CARD-MARK PIC X(2).
           88 WAS-TRACE VALUE "TR".
           88 WAS-MISSING VALUE "--".
           10 FILLER PIC X(2).
       FD YEARBOOK.
       01 YEARBOOK-LINE PIC X(55).
       WORKING-STORAGE SECTION.
       01 STATION-NAMES.
           05 FILLER PIC X(13) VALUE "ASKHOLM    01".
           05 FILLER PIC X(13) VALUE "BREKKE     12".
           05 FILLER PIC X(13) VALUE "DALE MILL  05".
           05 FILLER PIC X(13) VALUE "HIGH TARN  48".
       01 STATION-TABLE REDEFINES STATION-NAMES.
           05 STATION OCCURS 4.
           10 STATION-NAME.
           15 STATION-CODE PIC X(3).
           15 FILLER PIC X(8).
           10 STATION-HEIGHT PIC 9(2).
       01 RAIN-TABLE.
           05 RAIN-OF-STATION OCCURS 4.
           10 RAIN-OF-MONTH OCCURS 3.
           15 TEN-DAYS PIC S9(4)V9 PACKED-DECIMAL OCCURS 3.
           15 WETTEST PIC S9(3)V9 PACKED-DECIMAL.
           15 WETTEST-DAY PIC 9(2) PACKED-DECIMAL.
       01 DAY-TABLE.
           05 DAYS-OF-STATION OCCURS 4.
           10 DAYS-OF-MONTH OCCURS 3.
           15 DRY-DAYS PIC 9(2) BINARY.
           15 MISSING-DAYS PIC 9(2) BINARY.
       01 WORK-FIELDS.
           05 S PIC 9(2) BINARY VALUE 0.
           05 M PIC 9(2) BINARY VALUE 0.
           05 T PIC 9(2) BINARY VALUE 0.
           05 MONTH-RAIN PIC S9(5)V9 PACKED-DECIMAL VALUE 0.
           05 QUARTER-RAIN PIC S9(5)V9 PACKED-DECIMAL VALUE 0.
           05 MONTH-SUM PIC S9(6)V9 PACKED-DECIMAL VALUE 0.
           05 STATIONS-COUNTED PIC 9(2) BINARY VALUE 0.
           05 CARDS-REFUSED PIC 9(4) BINARY VALUE 0.
       01 END-OF-RETURNS PIC X VALUE "N".
           88 ALL-READ VALUE "Y".
       01 MONTH-NAMES PIC X(9) VALUE "JANFEBMAR".
       01 MONTH-NAME-TABLE REDEFINES MONTH-NAMES.
           05 MONTH-NAME PIC X(3) OCCURS 3.
       01 MONTH-SUMS.
           05 SUM-OF-MONTH PIC S9(6)V9 PACKED-DECIMAL OCCURS 3 VALUE 0.
           05 COUNTED-IN-MONTH PIC 9(3) PACKED-DECIMAL OCCURS 3 VALUE 0.
       01 STATION-LINE.
           05 LINE-NAME PIC X(13).
           05 LINE-HEIGHT PIC Z9.
           05 FILLER PIC X(4) VALUE "00 M".
       01 MONTH-LINE.
           05 FILLER PIC X(3) VALUE SPACE.
           05 LINE-MONTH PIC X(3).
           05 LINE-TEN PIC Z,Z(2)9.9 OCCURS 3.
           05 LINE-MONTH-RAIN PIC Z(2),Z(2)9.9.
           05 LINE-MONTH-TEXT REDEFINES LINE-MONTH-RAIN PIC X(8).
           05 FILLER PIC X(5) VALUE " DRY".
           05 LINE-DRY PIC Z9.
           05 FILLER PIC X(5) VALUE " MAX".
           05 LINE-WETTEST PIC Z(2)9.9.
           05 LINE-WETTEST-DAY PIC /9(2).
       01 SHOWN-RAIN PIC Z(3),Z(2)9.9.
       01 SHOWN-DEPARTURE PIC +(3)9.9.
       01 RX-STATE-1 PIC 9(6) VALUE 0.
       01 RX-FLAG-1 PIC 9 VALUE 0.
       PROCEDURE DIVISION.
       MAIN-PROGRAM.
           OPEN INPUT RETURNS OUTPUT YEARBOOK
           PERFORM CLEAR-TABLES
           READ RETURNS
               AT END
                   SET ALL-READ TO TRUE
           END-READ
           PERFORM UNTIL ALL-READ
               PERFORM TAKE-CARD
               READ RETURNS
                   AT END
                       SET ALL-READ TO TRUE
               END-READ
           END-PERFORM
           PERFORM PRINT-STATION VARYING S FROM 1 BY 1 UNTIL S > 4
           PERFORM SHOW-MONTH VARYING M FROM 1 BY 1 UNTIL M > 3
           CLOSE RETURNS YEARBOOK
           DISPLAY "CARDS REFUSED " CARDS-REFUSED
           STOP RUN.
       CLEAR-TABLES.
           PERFORM VARYING S FROM 1 BY 1 UNTIL S > 4
               PERFORM VARYING M FROM 1 BY 1 UNTIL M > 3
                   MOVE 0 TO WETTEST (S M) WETTEST-DAY (S M)
                   MOVE 0 TO DRY-DAYS (S M) MISSING-DAYS (S M)
                   MOVE 1 TO T
                   PERFORM 3 TIMES
                       MOVE 0 TO TEN-DAYS (S M T)
                       ADD 1 TO T
                   END-PERFORM
               END-PERFORM
           END-PERFORM.
       TAKE-CARD.
           MOVE 1 TO RX-STATE-1
           PERFORM UNTIL RX-STATE-1 = 0
               EVALUATE RX-STATE-1
                   WHEN 1
                       MOVE 1 TO S
                       MOVE 0 TO RX-FLAG-1
                       PERFORM UNTIL RX-FLAG-1 = 1
                           IF S > 4
                               MOVE 1 TO RX-FLAG-1
                           ELSE
                               IF STATION-CODE (S) = CARD-STATION
                               MOVE 1 TO RX-FLAG-1
                               ELSE
                               ADD 1 TO S
                               END-IF
                           END-IF
                       END-PERFORM
                       IF S > 4
                           DISPLAY "WHICH STATION: " RETURN-CARD
                           ADD 1 TO CARDS-REFUSED
                           MOVE 3 TO RX-STATE-1
                       ELSE
                           IF CARD-MONTH NOT NUMERIC OR CARD-DAY NOT
                               NUMERIC
                               DISPLAY "WHICH DAY: " RETURN-CARD
                               ADD 1 TO CARDS-REFUSED
                               MOVE 3 TO RX-STATE-1
                           ELSE
                               MOVE CARD-MONTH TO M
                               IF M < 1 OR M > 3
                               DISPLAY "NOT THIS QUARTER: " RETURN-CARD
                               ADD 1 TO CARDS-REFUSED
                               MOVE 3 TO RX-STATE-1
                               ELSE
                               EVALUATE CARD-DAY
                               WHEN 1 THRU 10
                               MOVE 1 TO T
                               MOVE 2 TO RX-STATE-1
                               WHEN 11 THRU 20
                               MOVE 2 TO T
                               MOVE 2 TO RX-STATE-1
                               WHEN 21 THRU 31
                               MOVE 3 TO T
                               MOVE 2 TO RX-STATE-1
                               WHEN OTHER
                               DISPLAY "WHICH DAY: " RETURN-CARD
                               ADD 1 TO CARDS-REFUSED
                               MOVE 3 TO RX-STATE-1
                               END-EVALUATE
                               END-IF
                           END-IF
                       END-IF
                   WHEN 2
                       EVALUATE TRUE
                           WHEN WAS-MISSING
                               ADD 1 TO MISSING-DAYS (S M)
                           WHEN WAS-TRACE
                               CONTINUE
                           WHEN CARD-RAIN NOT NUMERIC
                               DISPLAY "HOW MUCH: " RETURN-CARD
                               ADD 1 TO CARDS-REFUSED MISSING-DAYS (S M)
                           WHEN CARD-RAIN = 0
                               ADD 1 TO DRY-DAYS (S M)
                           WHEN OTHER
                               ADD CARD-RAIN TO TEN-DAYS (S M T)
                               IF CARD-RAIN > WETTEST (S M)
                               MOVE CARD-RAIN TO WETTEST (S M)
                               MOVE CARD-DAY TO WETTEST-DAY (S M)
                               END-IF
                       END-EVALUATE
                       MOVE 3 TO RX-STATE-1
                   WHEN 3
                       MOVE 0 TO RX-STATE-1
               END-EVALUATE
           END-PERFORM.
       PRINT-STATION.
           MOVE STATION-NAME (S) TO LINE-NAME
           MOVE STATION-HEIGHT (S) TO LINE-HEIGHT
           WRITE YEARBOOK-LINE FROM STATION-LINE
           MOVE 0 TO QUARTER-RAIN
           MOVE 1 TO M
           PERFORM UNTIL M > 3
               MOVE MONTH-NAME (M) TO LINE-MONTH
               MOVE 0 TO MONTH-RAIN
               PERFORM WITH TEST AFTER VARYING T FROM 1 BY 1 UNTIL T = 3
                   MOVE TEN-DAYS (S M T) TO LINE-TEN (T)
                   ADD TEN-DAYS (S M T) TO MONTH-RAIN
               END-PERFORM
               MOVE DRY-DAYS (S M) TO LINE-DRY
               MOVE WETTEST (S M) TO LINE-WETTEST
               MOVE WETTEST-DAY (S M) TO LINE-WETTEST-DAY
               IF MISSING-DAYS (S M) > 5
                   MOVE " MISSING" TO LINE-MONTH-TEXT
                   WRITE YEARBOOK-LINE FROM MONTH-LINE
               ELSE
                   MOVE MONTH-RAIN TO LINE-MONTH-RAIN
                   WRITE YEARBOOK-LINE FROM MONTH-LINE
                   ADD MONTH-RAIN TO QUARTER-RAIN SUM-OF-MONTH (M)
                   ADD 1 TO COUNTED-IN-MONTH (M)
               END-IF
               ADD 1 TO M
           END-PERFORM
           MOVE QUARTER-RAIN TO SHOWN-RAIN
           DISPLAY STATION-NAME (S) SHOWN-RAIN.
       SHOW-MONTH.
           IF COUNTED-IN-MONTH (M) = 0
               DISPLAY MONTH-NAME (M) " NO RETURNS"
           ELSE
               DIVIDE COUNTED-IN-MONTH (M) INTO SUM-OF-MONTH (M) GIVING
                   MONTH-SUM SHOWN-RAIN ROUNDED
               SUBTRACT 82.5 FROM MONTH-SUM GIVING SHOWN-DEPARTURE
                   ROUNDED
               DISPLAY MONTH-NAME (M) " MEAN " SHOWN-RAIN " DEPARTURE "
                   SHOWN-DEPARTURE
           END-IF.
