       IDENTIFICATION DIVISION.
       PROGRAM-ID. RAINFALL.
       AUTHOR. LENA HAUGEN.
       INSTALLATION. COUNTY WATER BOARD.
       DATE-WRITTEN. 11 JANUARY 1988.
      *    A quarter's rain by station and ten days of a month, from the
      *    observers' daily returns.  A trace (TR) counts as nothing,
      *    but the day isn't dry; a day that wasn't read (--) is
      *    missing, and a month with more than five isn't totalled.
       ENVIRONMENT DIVISION.
       INPUT-OUTPUT SECTION.
       FILE-CONTROL.
           SELECT Returns ASSIGN TO "RAIN.DAT".
           SELECT Yearbook ASSIGN TO "YEARBOOK.OUT".
       DATA DIVISION.
       FILE SECTION.
       FD  Returns.
       01  Return-Card.
           05  Card-Station            PIC X(3).
           05  Card-Month              PIC 99.
           05  Card-Day                PIC 99.
           05  Card-Rain               PIC 9(3)V9.
           05  Card-Text REDEFINES Card-Rain.
               10  Card-Mark           PIC XX.
                   88  Was-Trace       VALUE "TR".
                   88  Was-Missing     VALUE "--".
               10  FILLER              PIC XX.
       FD  Yearbook.
       01  Yearbook-Line               PIC X(55).
       WORKING-STORAGE SECTION.
       01  Station-Names.
           05  FILLER                  PIC X(13) VALUE "ASKHOLM    01".
           05  FILLER                  PIC X(13) VALUE "BREKKE     12".
           05  FILLER                  PIC X(13) VALUE "DALE MILL  05".
           05  FILLER                  PIC X(13) VALUE "HIGH TARN  48".
       01  Station-Table REDEFINES Station-Names.
           05  Station                 OCCURS 4.
               10  Station-Name.
                   15  Station-Code    PIC X(3).
                   15  FILLER          PIC X(8).
               10  Station-Height      PIC 99.
       01  Rain-Table                  PACKED-DECIMAL.
           05  Rain-Of-Station         OCCURS 4.
               10  Rain-Of-Month       OCCURS 3.
                   15  Ten-Days        PIC S9(4)V9 OCCURS 3.
                   15  Wettest         PIC S9(3)V9.
                   15  Wettest-Day     PIC 9(2).
       01  Day-Table                   BINARY.
           05  Days-Of-Station         OCCURS 4.
               10  Days-Of-Month       OCCURS 3.
                   15  Dry-Days        PIC 9(2).
                   15  Missing-Days    PIC 9(2).
       01  Work-Fields.
           05  S                       PIC 9(2) BINARY VALUE 0.
           05  M                       PIC 9(2) BINARY VALUE 0.
           05  T                       PIC 9(2) BINARY VALUE 0.
           05  Month-Rain              PIC S9(5)V9 COMP-3 VALUE 0.
           05  Quarter-Rain            PIC S9(5)V9 COMP-3 VALUE 0.
           05  Month-Sum               PIC S9(6)V9 COMP-3 VALUE 0.
           05  Stations-Counted        PIC 9(2) BINARY VALUE 0.
           05  Cards-Refused           PIC 9(4) BINARY VALUE 0.
       01  End-Of-Returns              PIC X VALUE "N".
           88  All-Read                VALUE "Y".
       01  Month-Names                 PIC X(9) VALUE "JANFEBMAR".
       01  Month-Name-Table REDEFINES Month-Names.
           05  Month-Name              PIC XXX OCCURS 3.
       01  Month-Sums                  COMP-3.
           05  Sum-Of-Month            PIC S9(6)V9 OCCURS 3 VALUE 0.
           05  Counted-In-Month        PIC 9(3) OCCURS 3 VALUE 0.
       01  Station-Line.
           05  Line-Name               PIC X(13).
           05  Line-Height             PIC Z9.
           05  FILLER                  PIC X(4) VALUE "00 M".
       01  Month-Line.
           05  FILLER                  PIC X(3) VALUE SPACES.
           05  Line-Month              PIC X(3).
           05  Line-Ten                PIC Z,ZZ9.9 OCCURS 3.
           05  Line-Month-Rain         PIC ZZ,ZZ9.9.
           05  Line-Month-Text REDEFINES Line-Month-Rain PIC X(8).
           05  FILLER                  PIC X(5) VALUE " DRY".
           05  Line-Dry                PIC Z9.
           05  FILLER                  PIC X(5) VALUE " MAX".
           05  Line-Wettest            PIC ZZ9.9.
           05  Line-Wettest-Day        PIC /99.
       01  Shown-Rain                  PIC ZZZ,ZZ9.9.
       01  Shown-Departure             PIC +++9.9.
       PROCEDURE DIVISION.
       Main-Program.
           OPEN INPUT Returns OUTPUT Yearbook
           PERFORM Clear-Tables
           READ Returns AT END SET All-Read TO TRUE END-READ
           PERFORM UNTIL All-Read
               PERFORM Take-Card THRU Take-Card-Exit
               READ Returns AT END SET All-Read TO TRUE END-READ
           END-PERFORM
           PERFORM Print-Station VARYING S FROM 1 BY 1 UNTIL S > 4
           PERFORM Show-Month VARYING M FROM 1 BY 1 UNTIL M > 3
           CLOSE Returns Yearbook
           DISPLAY "CARDS REFUSED " Cards-Refused
           STOP RUN.
       Clear-Tables.
           PERFORM VARYING S FROM 1 BY 1 UNTIL S > 4
               PERFORM VARYING M FROM 1 BY 1 UNTIL M > 3
                   MOVE 0 TO Wettest (S, M) Wettest-Day (S, M)
                   MOVE 0 TO Dry-Days (S, M) Missing-Days (S, M)
                   MOVE 1 TO T
                   PERFORM 3 TIMES
                       MOVE 0 TO Ten-Days (S, M, T)
                       ADD 1 TO T
                   END-PERFORM
               END-PERFORM
           END-PERFORM.
       Take-Card.
           MOVE 1 TO S
           PERFORM UNTIL S > 4
               IF Station-Code (S) = Card-Station EXIT PERFORM END-IF
               ADD 1 TO S
           END-PERFORM
           IF S > 4
               DISPLAY "WHICH STATION: " Return-Card
               ADD 1 TO Cards-Refused
               EXIT PARAGRAPH
           END-IF
           IF Card-Month NOT NUMERIC OR Card-Day NOT NUMERIC
               DISPLAY "WHICH DAY: " Return-Card
               ADD 1 TO Cards-Refused
               EXIT PARAGRAPH
           END-IF
           MOVE Card-Month TO M
           IF M < 1 OR > 3
               DISPLAY "NOT THIS QUARTER: " Return-Card
               ADD 1 TO Cards-Refused
               EXIT PARAGRAPH
           END-IF
           EVALUATE Card-Day
               WHEN 1 THRU 10
                   MOVE 1 TO T
               WHEN 11 THRU 20
                   MOVE 2 TO T
               WHEN 21 THRU 31
                   MOVE 3 TO T
               WHEN OTHER
                   DISPLAY "WHICH DAY: " Return-Card
                   ADD 1 TO Cards-Refused
                   GO TO Take-Card-Exit
           END-EVALUATE
           EVALUATE TRUE
               WHEN Was-Missing
                   ADD 1 TO Missing-Days (S, M)
               WHEN Was-Trace
                   CONTINUE
               WHEN Card-Rain NOT NUMERIC
                   DISPLAY "HOW MUCH: " Return-Card
                   ADD 1 TO Cards-Refused Missing-Days (S, M)
               WHEN Card-Rain = 0
                   ADD 1 TO Dry-Days (S, M)
               WHEN OTHER
                   ADD Card-Rain TO Ten-Days (S, M, T)
                   IF Card-Rain > Wettest (S, M)
                       MOVE Card-Rain TO Wettest (S, M)
                       MOVE Card-Day TO Wettest-Day (S, M)
                   END-IF
           END-EVALUATE.
       Take-Card-Exit.
           EXIT.
       Print-Station.
           MOVE Station-Name (S) TO Line-Name
           MOVE Station-Height (S) TO Line-Height
           WRITE Yearbook-Line FROM Station-Line
           MOVE 0 TO Quarter-Rain
           PERFORM VARYING M FROM 1 BY 1 UNTIL M > 3
               MOVE Month-Name (M) TO Line-Month
               MOVE 0 TO Month-Rain
               PERFORM WITH TEST AFTER VARYING T FROM 1 BY 1
                       UNTIL T = 3
                   MOVE Ten-Days (S, M, T) TO Line-Ten (T)
                   ADD Ten-Days (S, M, T) TO Month-Rain
               END-PERFORM
               MOVE Dry-Days (S, M) TO Line-Dry
               MOVE Wettest (S, M) TO Line-Wettest
               MOVE Wettest-Day (S, M) TO Line-Wettest-Day
               IF Missing-Days (S, M) > 5
                   MOVE " MISSING" TO Line-Month-Text
                   WRITE Yearbook-Line FROM Month-Line
                   EXIT PERFORM CYCLE
               END-IF
               MOVE Month-Rain TO Line-Month-Rain
               WRITE Yearbook-Line FROM Month-Line
               ADD Month-Rain TO Quarter-Rain Sum-Of-Month (M)
               ADD 1 TO Counted-In-Month (M)
           END-PERFORM
           MOVE Quarter-Rain TO Shown-Rain
           DISPLAY Station-Name (S) Shown-Rain.
       Show-Month.
           IF Counted-In-Month (M) = 0
               DISPLAY Month-Name (M) " NO RETURNS"
           ELSE
               DIVIDE Sum-Of-Month (M) BY Counted-In-Month (M)
                   GIVING Month-Sum Shown-Rain ROUNDED
               SUBTRACT 82.5 FROM Month-Sum
                   GIVING Shown-Departure ROUNDED
               DISPLAY Month-Name (M) " MEAN " Shown-Rain
                   " DEPARTURE " Shown-Departure
           END-IF.
