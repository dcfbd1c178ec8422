       IDENTIFICATION DIVISION.
       PROGRAM-ID. USAGES.
       DATA DIVISION.
       WORKING-STORAGE SECTION.
       01 A1 PIC 9 VALUE 7.
       01 A1-X REDEFINES A1 PIC X(1).
       01 A2 PIC 9(5) VALUE 12345.
       01 A2-X REDEFINES A2 PIC X(5).
       01 A3 PIC 9(3)V99 VALUE 123.45.
       01 A3-X REDEFINES A3 PIC X(5).
       01 A4 PIC S9(4) VALUE -1234.
       01 A4-X REDEFINES A4 PIC X(4).
       01 A5 PIC S9(2)V9(3) VALUE -12.345.
       01 A5-X REDEFINES A5 PIC X(5).
       01 A6 PIC V9(4) VALUE 0.9876.
       01 A6-X REDEFINES A6 PIC X(4).
       01 A7 PIC S9(3) SIGN LEADING SEPARATE VALUE -120.
       01 A7-X REDEFINES A7 PIC X(4).
       01 A8 PIC S9(2)V9 SIGN TRAILING SEPARATE VALUE +98.7.
       01 A8-X REDEFINES A8 PIC X(4).
       01 A9 PIC S9(9)V9(9) VALUE -123456789.987654321.
       01 A9-X REDEFINES A9 PIC X(18).
       01 A10 PIC 9(18) VALUE 998877665544332211.
       01 A10-X REDEFINES A10 PIC X(18).
       01 B1 PIC S9(4) BINARY VALUE 0.
       01 B2 PIC 9(5)V99 COMP VALUE 0.
       01 B3 PIC S9(12)V9(6) BINARY VALUE 0.
       01 P1 PIC S9(3) COMP-3 VALUE 0.
       01 P2 PIC 9(4)V9 PACKED-DECIMAL VALUE 0.
       01 P3 PIC S9(9)V9(9) COMP-3 VALUE 0.
       01 P4 PIC V9(4) COMP-3 VALUE 0.
       01 D1 PIC S9(9)V9(9) SIGN LEADING SEPARATE VALUE 0.
       01 D1-X REDEFINES D1 PIC X(19).
       01 SIZE-X PIC X.
       PROCEDURE DIVISION.
       CASES.
           MOVE A1 TO B1
           MOVE B1 TO D1
           DISPLAY "001 [" D1-X "]"
           MOVE A1 TO B2
           MOVE B2 TO D1
           DISPLAY "002 [" D1-X "]"
           MOVE A1 TO B3
           MOVE B3 TO D1
           DISPLAY "003 [" D1-X "]"
           MOVE A1 TO P1
           MOVE P1 TO D1
           DISPLAY "004 [" D1-X "]"
           MOVE A1 TO P2
           MOVE P2 TO D1
           DISPLAY "005 [" D1-X "]"
           MOVE A1 TO P3
           MOVE P3 TO D1
           DISPLAY "006 [" D1-X "]"
           MOVE A1 TO P4
           MOVE P4 TO D1
           DISPLAY "007 [" D1-X "]"
           MOVE A2 TO B1
           MOVE B1 TO D1
           DISPLAY "008 [" D1-X "]"
           MOVE A2 TO B2
           MOVE B2 TO D1
           DISPLAY "009 [" D1-X "]"
           MOVE A2 TO B3
           MOVE B3 TO D1
           DISPLAY "010 [" D1-X "]"
           MOVE A2 TO P1
           MOVE P1 TO D1
           DISPLAY "011 [" D1-X "]"
           MOVE A2 TO P2
           MOVE P2 TO D1
           DISPLAY "012 [" D1-X "]"
           MOVE A2 TO P3
           MOVE P3 TO D1
           DISPLAY "013 [" D1-X "]"
           MOVE A2 TO P4
           MOVE P4 TO D1
           DISPLAY "014 [" D1-X "]"
           MOVE A3 TO B1
           MOVE B1 TO D1
           DISPLAY "015 [" D1-X "]"
           MOVE A3 TO B2
           MOVE B2 TO D1
           DISPLAY "016 [" D1-X "]"
           MOVE A3 TO B3
           MOVE B3 TO D1
           DISPLAY "017 [" D1-X "]"
           MOVE A3 TO P1
           MOVE P1 TO D1
           DISPLAY "018 [" D1-X "]"
           MOVE A3 TO P2
           MOVE P2 TO D1
           DISPLAY "019 [" D1-X "]"
           MOVE A3 TO P3
           MOVE P3 TO D1
           DISPLAY "020 [" D1-X "]"
           MOVE A3 TO P4
           MOVE P4 TO D1
           DISPLAY "021 [" D1-X "]"
           MOVE A4 TO B1
           MOVE B1 TO D1
           DISPLAY "022 [" D1-X "]"
           MOVE A4 TO B2
           MOVE B2 TO D1
           DISPLAY "023 [" D1-X "]"
           MOVE A4 TO B3
           MOVE B3 TO D1
           DISPLAY "024 [" D1-X "]"
           MOVE A4 TO P1
           MOVE P1 TO D1
           DISPLAY "025 [" D1-X "]"
           MOVE A4 TO P2
           MOVE P2 TO D1
           DISPLAY "026 [" D1-X "]"
           MOVE A4 TO P3
           MOVE P3 TO D1
           DISPLAY "027 [" D1-X "]"
           MOVE A4 TO P4
           MOVE P4 TO D1
           DISPLAY "028 [" D1-X "]"
           MOVE A5 TO B1
           MOVE B1 TO D1
           DISPLAY "029 [" D1-X "]"
           MOVE A5 TO B2
           MOVE B2 TO D1
           DISPLAY "030 [" D1-X "]"
           MOVE A5 TO B3
           MOVE B3 TO D1
           DISPLAY "031 [" D1-X "]"
           MOVE A5 TO P1
           MOVE P1 TO D1
           DISPLAY "032 [" D1-X "]"
           MOVE A5 TO P2
           MOVE P2 TO D1
           DISPLAY "033 [" D1-X "]"
           MOVE A5 TO P3
           MOVE P3 TO D1
           DISPLAY "034 [" D1-X "]"
           MOVE A5 TO P4
           MOVE P4 TO D1
           DISPLAY "035 [" D1-X "]"
           MOVE A6 TO B1
           MOVE B1 TO D1
           DISPLAY "036 [" D1-X "]"
           MOVE A6 TO B2
           MOVE B2 TO D1
           DISPLAY "037 [" D1-X "]"
           MOVE A6 TO B3
           MOVE B3 TO D1
           DISPLAY "038 [" D1-X "]"
           MOVE A6 TO P1
           MOVE P1 TO D1
           DISPLAY "039 [" D1-X "]"
           MOVE A6 TO P2
           MOVE P2 TO D1
           DISPLAY "040 [" D1-X "]"
           MOVE A6 TO P3
           MOVE P3 TO D1
           DISPLAY "041 [" D1-X "]"
           MOVE A6 TO P4
           MOVE P4 TO D1
           DISPLAY "042 [" D1-X "]"
           MOVE A7 TO B1
           MOVE B1 TO D1
           DISPLAY "043 [" D1-X "]"
           MOVE A7 TO B2
           MOVE B2 TO D1
           DISPLAY "044 [" D1-X "]"
           MOVE A7 TO B3
           MOVE B3 TO D1
           DISPLAY "045 [" D1-X "]"
           MOVE A7 TO P1
           MOVE P1 TO D1
           DISPLAY "046 [" D1-X "]"
           MOVE A7 TO P2
           MOVE P2 TO D1
           DISPLAY "047 [" D1-X "]"
           MOVE A7 TO P3
           MOVE P3 TO D1
           DISPLAY "048 [" D1-X "]"
           MOVE A7 TO P4
           MOVE P4 TO D1
           DISPLAY "049 [" D1-X "]"
           MOVE A8 TO B1
           MOVE B1 TO D1
           DISPLAY "050 [" D1-X "]"
           MOVE A8 TO B2
           MOVE B2 TO D1
           DISPLAY "051 [" D1-X "]"
           MOVE A8 TO B3
           MOVE B3 TO D1
           DISPLAY "052 [" D1-X "]"
           MOVE A8 TO P1
           MOVE P1 TO D1
           DISPLAY "053 [" D1-X "]"
           MOVE A8 TO P2
           MOVE P2 TO D1
           DISPLAY "054 [" D1-X "]"
           MOVE A8 TO P3
           MOVE P3 TO D1
           DISPLAY "055 [" D1-X "]"
           MOVE A8 TO P4
           MOVE P4 TO D1
           DISPLAY "056 [" D1-X "]"
           MOVE A9 TO B1
           MOVE B1 TO D1
           DISPLAY "057 [" D1-X "]"
           MOVE A9 TO B2
           MOVE B2 TO D1
           DISPLAY "058 [" D1-X "]"
           MOVE A9 TO B3
           MOVE B3 TO D1
           DISPLAY "059 [" D1-X "]"
           MOVE A9 TO P1
           MOVE P1 TO D1
           DISPLAY "060 [" D1-X "]"
           MOVE A9 TO P2
           MOVE P2 TO D1
           DISPLAY "061 [" D1-X "]"
           MOVE A9 TO P3
           MOVE P3 TO D1
           DISPLAY "062 [" D1-X "]"
           MOVE A9 TO P4
           MOVE P4 TO D1
           DISPLAY "063 [" D1-X "]"
           MOVE A10 TO B1
           MOVE B1 TO D1
           DISPLAY "064 [" D1-X "]"
           MOVE A10 TO P1
           MOVE P1 TO D1
           DISPLAY "065 [" D1-X "]"
           MOVE A10 TO P2
           MOVE P2 TO D1
           DISPLAY "066 [" D1-X "]"
           MOVE A10 TO P3
           MOVE P3 TO D1
           DISPLAY "067 [" D1-X "]"
           MOVE A10 TO P4
           MOVE P4 TO D1
           DISPLAY "068 [" D1-X "]"
           MOVE 0 TO B1
           MOVE B1 TO D1
           DISPLAY "069 [" D1-X "]"
           MOVE 0 TO B2
           MOVE B2 TO D1
           DISPLAY "070 [" D1-X "]"
           MOVE 0 TO B3
           MOVE B3 TO D1
           DISPLAY "071 [" D1-X "]"
           MOVE 0 TO P1
           MOVE P1 TO D1
           DISPLAY "072 [" D1-X "]"
           MOVE 0 TO P2
           MOVE P2 TO D1
           DISPLAY "073 [" D1-X "]"
           MOVE 0 TO P3
           MOVE P3 TO D1
           DISPLAY "074 [" D1-X "]"
           MOVE 0 TO P4
           MOVE P4 TO D1
           DISPLAY "075 [" D1-X "]"
           MOVE 7 TO B1
           MOVE B1 TO D1
           DISPLAY "076 [" D1-X "]"
           MOVE 7 TO B2
           MOVE B2 TO D1
           DISPLAY "077 [" D1-X "]"
           MOVE 7 TO B3
           MOVE B3 TO D1
           DISPLAY "078 [" D1-X "]"
           MOVE 7 TO P1
           MOVE P1 TO D1
           DISPLAY "079 [" D1-X "]"
           MOVE 7 TO P2
           MOVE P2 TO D1
           DISPLAY "080 [" D1-X "]"
           MOVE 7 TO P3
           MOVE P3 TO D1
           DISPLAY "081 [" D1-X "]"
           MOVE 7 TO P4
           MOVE P4 TO D1
           DISPLAY "082 [" D1-X "]"
           MOVE -7 TO B1
           MOVE B1 TO D1
           DISPLAY "083 [" D1-X "]"
           MOVE -7 TO B2
           MOVE B2 TO D1
           DISPLAY "084 [" D1-X "]"
           MOVE -7 TO B3
           MOVE B3 TO D1
           DISPLAY "085 [" D1-X "]"
           MOVE -7 TO P1
           MOVE P1 TO D1
           DISPLAY "086 [" D1-X "]"
           MOVE -7 TO P2
           MOVE P2 TO D1
           DISPLAY "087 [" D1-X "]"
           MOVE -7 TO P3
           MOVE P3 TO D1
           DISPLAY "088 [" D1-X "]"
           MOVE -7 TO P4
           MOVE P4 TO D1
           DISPLAY "089 [" D1-X "]"
           MOVE +123.456 TO B1
           MOVE B1 TO D1
           DISPLAY "090 [" D1-X "]"
           MOVE +123.456 TO B2
           MOVE B2 TO D1
           DISPLAY "091 [" D1-X "]"
           MOVE +123.456 TO B3
           MOVE B3 TO D1
           DISPLAY "092 [" D1-X "]"
           MOVE +123.456 TO P1
           MOVE P1 TO D1
           DISPLAY "093 [" D1-X "]"
           MOVE +123.456 TO P2
           MOVE P2 TO D1
           DISPLAY "094 [" D1-X "]"
           MOVE +123.456 TO P3
           MOVE P3 TO D1
           DISPLAY "095 [" D1-X "]"
           MOVE +123.456 TO P4
           MOVE P4 TO D1
           DISPLAY "096 [" D1-X "]"
           MOVE -0.05 TO B1
           MOVE B1 TO D1
           DISPLAY "097 [" D1-X "]"
           MOVE -0.05 TO B2
           MOVE B2 TO D1
           DISPLAY "098 [" D1-X "]"
           MOVE -0.05 TO B3
           MOVE B3 TO D1
           DISPLAY "099 [" D1-X "]"
           MOVE -0.05 TO P2
           MOVE P2 TO D1
           DISPLAY "100 [" D1-X "]"
           MOVE -0.05 TO P3
           MOVE P3 TO D1
           DISPLAY "101 [" D1-X "]"
           MOVE -0.05 TO P4
           MOVE P4 TO D1
           DISPLAY "102 [" D1-X "]"
           MOVE 99999 TO B1
           MOVE B1 TO D1
           DISPLAY "103 [" D1-X "]"
           MOVE 99999 TO B2
           MOVE B2 TO D1
           DISPLAY "104 [" D1-X "]"
           MOVE 99999 TO B3
           MOVE B3 TO D1
           DISPLAY "105 [" D1-X "]"
           MOVE 99999 TO P1
           MOVE P1 TO D1
           DISPLAY "106 [" D1-X "]"
           MOVE 99999 TO P2
           MOVE P2 TO D1
           DISPLAY "107 [" D1-X "]"
           MOVE 99999 TO P3
           MOVE P3 TO D1
           DISPLAY "108 [" D1-X "]"
           MOVE 99999 TO P4
           MOVE P4 TO D1
           DISPLAY "109 [" D1-X "]"
           MOVE .5 TO B1
           MOVE B1 TO D1
           DISPLAY "110 [" D1-X "]"
           MOVE .5 TO B2
           MOVE B2 TO D1
           DISPLAY "111 [" D1-X "]"
           MOVE .5 TO B3
           MOVE B3 TO D1
           DISPLAY "112 [" D1-X "]"
           MOVE .5 TO P1
           MOVE P1 TO D1
           DISPLAY "113 [" D1-X "]"
           MOVE .5 TO P2
           MOVE P2 TO D1
           DISPLAY "114 [" D1-X "]"
           MOVE .5 TO P3
           MOVE P3 TO D1
           DISPLAY "115 [" D1-X "]"
           MOVE .5 TO P4
           MOVE P4 TO D1
           DISPLAY "116 [" D1-X "]"
           MOVE ZERO TO B1
           MOVE B1 TO D1
           DISPLAY "117 [" D1-X "]"
           MOVE ZERO TO B2
           MOVE B2 TO D1
           DISPLAY "118 [" D1-X "]"
           MOVE ZERO TO B3
           MOVE B3 TO D1
           DISPLAY "119 [" D1-X "]"
           MOVE ZERO TO P1
           MOVE P1 TO D1
           DISPLAY "120 [" D1-X "]"
           MOVE ZERO TO P2
           MOVE P2 TO D1
           DISPLAY "121 [" D1-X "]"
           MOVE ZERO TO P3
           MOVE P3 TO D1
           DISPLAY "122 [" D1-X "]"
           MOVE ZERO TO P4
           MOVE P4 TO D1
           DISPLAY "123 [" D1-X "]"
           MOVE 98.7 TO B1
           ADD A3 TO B1
               ON SIZE ERROR MOVE "E" TO SIZE-X
               NOT ON SIZE ERROR MOVE "-" TO SIZE-X
           END-ADD
           MOVE B1 TO D1
           DISPLAY "124 [" D1-X SIZE-X "]"
           MOVE 98.7 TO B2
           ADD A3 TO B2
               ON SIZE ERROR MOVE "E" TO SIZE-X
               NOT ON SIZE ERROR MOVE "-" TO SIZE-X
           END-ADD
           MOVE B2 TO D1
           DISPLAY "125 [" D1-X SIZE-X "]"
           MOVE 98.7 TO B3
           ADD A3 TO B3
               ON SIZE ERROR MOVE "E" TO SIZE-X
               NOT ON SIZE ERROR MOVE "-" TO SIZE-X
           END-ADD
           MOVE B3 TO D1
           DISPLAY "126 [" D1-X SIZE-X "]"
           MOVE 98.7 TO P1
           ADD A3 TO P1
               ON SIZE ERROR MOVE "E" TO SIZE-X
               NOT ON SIZE ERROR MOVE "-" TO SIZE-X
           END-ADD
           MOVE P1 TO D1
           DISPLAY "127 [" D1-X SIZE-X "]"
           MOVE 98.7 TO P2
           ADD A3 TO P2
               ON SIZE ERROR MOVE "E" TO SIZE-X
               NOT ON SIZE ERROR MOVE "-" TO SIZE-X
           END-ADD
           MOVE P2 TO D1
           DISPLAY "128 [" D1-X SIZE-X "]"
           MOVE 98.7 TO P3
           ADD A3 TO P3
               ON SIZE ERROR MOVE "E" TO SIZE-X
               NOT ON SIZE ERROR MOVE "-" TO SIZE-X
           END-ADD
           MOVE P3 TO D1
           DISPLAY "129 [" D1-X SIZE-X "]"
           MOVE 98.7 TO P4
           ADD A3 TO P4
               ON SIZE ERROR MOVE "E" TO SIZE-X
               NOT ON SIZE ERROR MOVE "-" TO SIZE-X
           END-ADD
           MOVE P4 TO D1
           DISPLAY "130 [" D1-X SIZE-X "]"
           MOVE 98.7 TO B1
           SUBTRACT A5 FROM B1
               ON SIZE ERROR MOVE "E" TO SIZE-X
               NOT ON SIZE ERROR MOVE "-" TO SIZE-X
           END-SUBTRACT
           MOVE B1 TO D1
           DISPLAY "131 [" D1-X SIZE-X "]"
           MOVE 98.7 TO B2
           SUBTRACT A5 FROM B2
               ON SIZE ERROR MOVE "E" TO SIZE-X
               NOT ON SIZE ERROR MOVE "-" TO SIZE-X
           END-SUBTRACT
           MOVE B2 TO D1
           DISPLAY "132 [" D1-X SIZE-X "]"
           MOVE 98.7 TO B3
           SUBTRACT A5 FROM B3
               ON SIZE ERROR MOVE "E" TO SIZE-X
               NOT ON SIZE ERROR MOVE "-" TO SIZE-X
           END-SUBTRACT
           MOVE B3 TO D1
           DISPLAY "133 [" D1-X SIZE-X "]"
           MOVE 98.7 TO P1
           SUBTRACT A5 FROM P1
               ON SIZE ERROR MOVE "E" TO SIZE-X
               NOT ON SIZE ERROR MOVE "-" TO SIZE-X
           END-SUBTRACT
           MOVE P1 TO D1
           DISPLAY "134 [" D1-X SIZE-X "]"
           MOVE 98.7 TO P2
           SUBTRACT A5 FROM P2
               ON SIZE ERROR MOVE "E" TO SIZE-X
               NOT ON SIZE ERROR MOVE "-" TO SIZE-X
           END-SUBTRACT
           MOVE P2 TO D1
           DISPLAY "135 [" D1-X SIZE-X "]"
           MOVE 98.7 TO P3
           SUBTRACT A5 FROM P3
               ON SIZE ERROR MOVE "E" TO SIZE-X
               NOT ON SIZE ERROR MOVE "-" TO SIZE-X
           END-SUBTRACT
           MOVE P3 TO D1
           DISPLAY "136 [" D1-X SIZE-X "]"
           MOVE 98.7 TO P4
           SUBTRACT A5 FROM P4
               ON SIZE ERROR MOVE "E" TO SIZE-X
               NOT ON SIZE ERROR MOVE "-" TO SIZE-X
           END-SUBTRACT
           MOVE P4 TO D1
           DISPLAY "137 [" D1-X SIZE-X "]"
           MOVE 98.7 TO B1
           MULTIPLY -3 BY B1
               ON SIZE ERROR MOVE "E" TO SIZE-X
               NOT ON SIZE ERROR MOVE "-" TO SIZE-X
           END-MULTIPLY
           MOVE B1 TO D1
           DISPLAY "138 [" D1-X SIZE-X "]"
           MOVE 98.7 TO B2
           MULTIPLY -3 BY B2
               ON SIZE ERROR MOVE "E" TO SIZE-X
               NOT ON SIZE ERROR MOVE "-" TO SIZE-X
           END-MULTIPLY
           MOVE B2 TO D1
           DISPLAY "139 [" D1-X SIZE-X "]"
           MOVE 98.7 TO B3
           MULTIPLY -3 BY B3
               ON SIZE ERROR MOVE "E" TO SIZE-X
               NOT ON SIZE ERROR MOVE "-" TO SIZE-X
           END-MULTIPLY
           MOVE B3 TO D1
           DISPLAY "140 [" D1-X SIZE-X "]"
           MOVE 98.7 TO P1
           MULTIPLY -3 BY P1
               ON SIZE ERROR MOVE "E" TO SIZE-X
               NOT ON SIZE ERROR MOVE "-" TO SIZE-X
           END-MULTIPLY
           MOVE P1 TO D1
           DISPLAY "141 [" D1-X SIZE-X "]"
           MOVE 98.7 TO P2
           MULTIPLY -3 BY P2
               ON SIZE ERROR MOVE "E" TO SIZE-X
               NOT ON SIZE ERROR MOVE "-" TO SIZE-X
           END-MULTIPLY
           MOVE P2 TO D1
           DISPLAY "142 [" D1-X SIZE-X "]"
           MOVE 98.7 TO P3
           MULTIPLY -3 BY P3
               ON SIZE ERROR MOVE "E" TO SIZE-X
               NOT ON SIZE ERROR MOVE "-" TO SIZE-X
           END-MULTIPLY
           MOVE P3 TO D1
           DISPLAY "143 [" D1-X SIZE-X "]"
           MOVE 98.7 TO P4
           MULTIPLY -3 BY P4
               ON SIZE ERROR MOVE "E" TO SIZE-X
               NOT ON SIZE ERROR MOVE "-" TO SIZE-X
           END-MULTIPLY
           MOVE P4 TO D1
           DISPLAY "144 [" D1-X SIZE-X "]"
           MOVE 98.7 TO B1
           DIVIDE A1 INTO B1
               ON SIZE ERROR MOVE "E" TO SIZE-X
               NOT ON SIZE ERROR MOVE "-" TO SIZE-X
           END-DIVIDE
           MOVE B1 TO D1
           DISPLAY "145 [" D1-X SIZE-X "]"
           MOVE 98.7 TO B2
           DIVIDE A1 INTO B2
               ON SIZE ERROR MOVE "E" TO SIZE-X
               NOT ON SIZE ERROR MOVE "-" TO SIZE-X
           END-DIVIDE
           MOVE B2 TO D1
           DISPLAY "146 [" D1-X SIZE-X "]"
           MOVE 98.7 TO B3
           DIVIDE A1 INTO B3
               ON SIZE ERROR MOVE "E" TO SIZE-X
               NOT ON SIZE ERROR MOVE "-" TO SIZE-X
           END-DIVIDE
           MOVE B3 TO D1
           DISPLAY "147 [" D1-X SIZE-X "]"
           MOVE 98.7 TO P1
           DIVIDE A1 INTO P1
               ON SIZE ERROR MOVE "E" TO SIZE-X
               NOT ON SIZE ERROR MOVE "-" TO SIZE-X
           END-DIVIDE
           MOVE P1 TO D1
           DISPLAY "148 [" D1-X SIZE-X "]"
           MOVE 98.7 TO P2
           DIVIDE A1 INTO P2
               ON SIZE ERROR MOVE "E" TO SIZE-X
               NOT ON SIZE ERROR MOVE "-" TO SIZE-X
           END-DIVIDE
           MOVE P2 TO D1
           DISPLAY "149 [" D1-X SIZE-X "]"
           MOVE 98.7 TO P3
           DIVIDE A1 INTO P3
               ON SIZE ERROR MOVE "E" TO SIZE-X
               NOT ON SIZE ERROR MOVE "-" TO SIZE-X
           END-DIVIDE
           MOVE P3 TO D1
           DISPLAY "150 [" D1-X SIZE-X "]"
           MOVE 98.7 TO P4
           DIVIDE A1 INTO P4
               ON SIZE ERROR MOVE "E" TO SIZE-X
               NOT ON SIZE ERROR MOVE "-" TO SIZE-X
           END-DIVIDE
           MOVE P4 TO D1
           DISPLAY "151 [" D1-X SIZE-X "]"
           MOVE 98.7 TO B1
           ADD B1 A4 GIVING B1 ROUNDED
               ON SIZE ERROR MOVE "E" TO SIZE-X
               NOT ON SIZE ERROR MOVE "-" TO SIZE-X
           END-ADD
           MOVE B1 TO D1
           DISPLAY "152 [" D1-X SIZE-X "]"
           MOVE 98.7 TO B2
           ADD B2 A4 GIVING B2 ROUNDED
               ON SIZE ERROR MOVE "E" TO SIZE-X
               NOT ON SIZE ERROR MOVE "-" TO SIZE-X
           END-ADD
           MOVE B2 TO D1
           DISPLAY "153 [" D1-X SIZE-X "]"
           MOVE 98.7 TO B3
           ADD B3 A4 GIVING B3 ROUNDED
               ON SIZE ERROR MOVE "E" TO SIZE-X
               NOT ON SIZE ERROR MOVE "-" TO SIZE-X
           END-ADD
           MOVE B3 TO D1
           DISPLAY "154 [" D1-X SIZE-X "]"
           MOVE 98.7 TO P1
           ADD P1 A4 GIVING P1 ROUNDED
               ON SIZE ERROR MOVE "E" TO SIZE-X
               NOT ON SIZE ERROR MOVE "-" TO SIZE-X
           END-ADD
           MOVE P1 TO D1
           DISPLAY "155 [" D1-X SIZE-X "]"
           MOVE 98.7 TO P2
           ADD P2 A4 GIVING P2 ROUNDED
               ON SIZE ERROR MOVE "E" TO SIZE-X
               NOT ON SIZE ERROR MOVE "-" TO SIZE-X
           END-ADD
           MOVE P2 TO D1
           DISPLAY "156 [" D1-X SIZE-X "]"
           MOVE 98.7 TO P3
           ADD P3 A4 GIVING P3 ROUNDED
               ON SIZE ERROR MOVE "E" TO SIZE-X
               NOT ON SIZE ERROR MOVE "-" TO SIZE-X
           END-ADD
           MOVE P3 TO D1
           DISPLAY "157 [" D1-X SIZE-X "]"
           MOVE 98.7 TO P4
           ADD P4 A4 GIVING P4 ROUNDED
               ON SIZE ERROR MOVE "E" TO SIZE-X
               NOT ON SIZE ERROR MOVE "-" TO SIZE-X
           END-ADD
           MOVE P4 TO D1
           DISPLAY "158 [" D1-X SIZE-X "]"
           MOVE 98.7 TO B1
           COMPUTE B1 ROUNDED = B1 * A6 - A8
               ON SIZE ERROR MOVE "E" TO SIZE-X
               NOT ON SIZE ERROR MOVE "-" TO SIZE-X
           END-COMPUTE
           MOVE B1 TO D1
           DISPLAY "159 [" D1-X SIZE-X "]"
           MOVE 98.7 TO B2
           COMPUTE B2 ROUNDED = B2 * A6 - A8
               ON SIZE ERROR MOVE "E" TO SIZE-X
               NOT ON SIZE ERROR MOVE "-" TO SIZE-X
           END-COMPUTE
           MOVE B2 TO D1
           DISPLAY "160 [" D1-X SIZE-X "]"
           MOVE 98.7 TO B3
           COMPUTE B3 ROUNDED = B3 * A6 - A8
               ON SIZE ERROR MOVE "E" TO SIZE-X
               NOT ON SIZE ERROR MOVE "-" TO SIZE-X
           END-COMPUTE
           MOVE B3 TO D1
           DISPLAY "161 [" D1-X SIZE-X "]"
           MOVE 98.7 TO P1
           COMPUTE P1 ROUNDED = P1 * A6 - A8
               ON SIZE ERROR MOVE "E" TO SIZE-X
               NOT ON SIZE ERROR MOVE "-" TO SIZE-X
           END-COMPUTE
           MOVE P1 TO D1
           DISPLAY "162 [" D1-X SIZE-X "]"
           MOVE 98.7 TO P2
           COMPUTE P2 ROUNDED = P2 * A6 - A8
               ON SIZE ERROR MOVE "E" TO SIZE-X
               NOT ON SIZE ERROR MOVE "-" TO SIZE-X
           END-COMPUTE
           MOVE P2 TO D1
           DISPLAY "163 [" D1-X SIZE-X "]"
           MOVE 98.7 TO P3
           COMPUTE P3 ROUNDED = P3 * A6 - A8
               ON SIZE ERROR MOVE "E" TO SIZE-X
               NOT ON SIZE ERROR MOVE "-" TO SIZE-X
           END-COMPUTE
           MOVE P3 TO D1
           DISPLAY "164 [" D1-X SIZE-X "]"
           MOVE 98.7 TO P4
           COMPUTE P4 ROUNDED = P4 * A6 - A8
               ON SIZE ERROR MOVE "E" TO SIZE-X
               NOT ON SIZE ERROR MOVE "-" TO SIZE-X
           END-COMPUTE
           MOVE P4 TO D1
           DISPLAY "165 [" D1-X SIZE-X "]"
           IF B1 = B3
               DISPLAY "Y" NO ADVANCING
           ELSE DISPLAY "N" NO ADVANCING.
           IF B1 < B3
               DISPLAY "Y" NO ADVANCING
           ELSE DISPLAY "N" NO ADVANCING.
           IF B1 NOT > B3
               DISPLAY "Y" NO ADVANCING
           ELSE DISPLAY "N" NO ADVANCING.
           DISPLAY " 166".
           IF B1 = P1
               DISPLAY "Y" NO ADVANCING
           ELSE DISPLAY "N" NO ADVANCING.
           IF B1 < P1
               DISPLAY "Y" NO ADVANCING
           ELSE DISPLAY "N" NO ADVANCING.
           IF B1 NOT > P1
               DISPLAY "Y" NO ADVANCING
           ELSE DISPLAY "N" NO ADVANCING.
           DISPLAY " 167".
           IF B1 = P3
               DISPLAY "Y" NO ADVANCING
           ELSE DISPLAY "N" NO ADVANCING.
           IF B1 < P3
               DISPLAY "Y" NO ADVANCING
           ELSE DISPLAY "N" NO ADVANCING.
           IF B1 NOT > P3
               DISPLAY "Y" NO ADVANCING
           ELSE DISPLAY "N" NO ADVANCING.
           DISPLAY " 168".
           IF B1 = A3
               DISPLAY "Y" NO ADVANCING
           ELSE DISPLAY "N" NO ADVANCING.
           IF B1 < A3
               DISPLAY "Y" NO ADVANCING
           ELSE DISPLAY "N" NO ADVANCING.
           IF B1 NOT > A3
               DISPLAY "Y" NO ADVANCING
           ELSE DISPLAY "N" NO ADVANCING.
           DISPLAY " 169".
           IF B1 = A5
               DISPLAY "Y" NO ADVANCING
           ELSE DISPLAY "N" NO ADVANCING.
           IF B1 < A5
               DISPLAY "Y" NO ADVANCING
           ELSE DISPLAY "N" NO ADVANCING.
           IF B1 NOT > A5
               DISPLAY "Y" NO ADVANCING
           ELSE DISPLAY "N" NO ADVANCING.
           DISPLAY " 170".
           IF B1 = 7
               DISPLAY "Y" NO ADVANCING
           ELSE DISPLAY "N" NO ADVANCING.
           IF B1 < 7
               DISPLAY "Y" NO ADVANCING
           ELSE DISPLAY "N" NO ADVANCING.
           IF B1 NOT > 7
               DISPLAY "Y" NO ADVANCING
           ELSE DISPLAY "N" NO ADVANCING.
           DISPLAY " 171".
           IF B1 = 98.7
               DISPLAY "Y" NO ADVANCING
           ELSE DISPLAY "N" NO ADVANCING.
           IF B1 < 98.7
               DISPLAY "Y" NO ADVANCING
           ELSE DISPLAY "N" NO ADVANCING.
           IF B1 NOT > 98.7
               DISPLAY "Y" NO ADVANCING
           ELSE DISPLAY "N" NO ADVANCING.
           DISPLAY " 172".
           IF B1 = ZERO
               DISPLAY "Y" NO ADVANCING
           ELSE DISPLAY "N" NO ADVANCING.
           IF B1 < ZERO
               DISPLAY "Y" NO ADVANCING
           ELSE DISPLAY "N" NO ADVANCING.
           IF B1 NOT > ZERO
               DISPLAY "Y" NO ADVANCING
           ELSE DISPLAY "N" NO ADVANCING.
           DISPLAY " 173".
           IF B2 = B1
               DISPLAY "Y" NO ADVANCING
           ELSE DISPLAY "N" NO ADVANCING.
           IF B2 < B1
               DISPLAY "Y" NO ADVANCING
           ELSE DISPLAY "N" NO ADVANCING.
           IF B2 NOT > B1
               DISPLAY "Y" NO ADVANCING
           ELSE DISPLAY "N" NO ADVANCING.
           DISPLAY " 174".
           IF B2 = B3
               DISPLAY "Y" NO ADVANCING
           ELSE DISPLAY "N" NO ADVANCING.
           IF B2 < B3
               DISPLAY "Y" NO ADVANCING
           ELSE DISPLAY "N" NO ADVANCING.
           IF B2 NOT > B3
               DISPLAY "Y" NO ADVANCING
           ELSE DISPLAY "N" NO ADVANCING.
           DISPLAY " 175".
           IF B2 = P1
               DISPLAY "Y" NO ADVANCING
           ELSE DISPLAY "N" NO ADVANCING.
           IF B2 < P1
               DISPLAY "Y" NO ADVANCING
           ELSE DISPLAY "N" NO ADVANCING.
           IF B2 NOT > P1
               DISPLAY "Y" NO ADVANCING
           ELSE DISPLAY "N" NO ADVANCING.
           DISPLAY " 176".
           IF B2 = P3
               DISPLAY "Y" NO ADVANCING
           ELSE DISPLAY "N" NO ADVANCING.
           IF B2 < P3
               DISPLAY "Y" NO ADVANCING
           ELSE DISPLAY "N" NO ADVANCING.
           IF B2 NOT > P3
               DISPLAY "Y" NO ADVANCING
           ELSE DISPLAY "N" NO ADVANCING.
           DISPLAY " 177".
           IF B2 = A3
               DISPLAY "Y" NO ADVANCING
           ELSE DISPLAY "N" NO ADVANCING.
           IF B2 < A3
               DISPLAY "Y" NO ADVANCING
           ELSE DISPLAY "N" NO ADVANCING.
           IF B2 NOT > A3
               DISPLAY "Y" NO ADVANCING
           ELSE DISPLAY "N" NO ADVANCING.
           DISPLAY " 178".
           IF B2 = A5
               DISPLAY "Y" NO ADVANCING
           ELSE DISPLAY "N" NO ADVANCING.
           IF B2 < A5
               DISPLAY "Y" NO ADVANCING
           ELSE DISPLAY "N" NO ADVANCING.
           IF B2 NOT > A5
               DISPLAY "Y" NO ADVANCING
           ELSE DISPLAY "N" NO ADVANCING.
           DISPLAY " 179".
           IF B2 = 7
               DISPLAY "Y" NO ADVANCING
           ELSE DISPLAY "N" NO ADVANCING.
           IF B2 < 7
               DISPLAY "Y" NO ADVANCING
           ELSE DISPLAY "N" NO ADVANCING.
           IF B2 NOT > 7
               DISPLAY "Y" NO ADVANCING
           ELSE DISPLAY "N" NO ADVANCING.
           DISPLAY " 180".
           IF B2 = 98.7
               DISPLAY "Y" NO ADVANCING
           ELSE DISPLAY "N" NO ADVANCING.
           IF B2 < 98.7
               DISPLAY "Y" NO ADVANCING
           ELSE DISPLAY "N" NO ADVANCING.
           IF B2 NOT > 98.7
               DISPLAY "Y" NO ADVANCING
           ELSE DISPLAY "N" NO ADVANCING.
           DISPLAY " 181".
           IF B2 = ZERO
               DISPLAY "Y" NO ADVANCING
           ELSE DISPLAY "N" NO ADVANCING.
           IF B2 < ZERO
               DISPLAY "Y" NO ADVANCING
           ELSE DISPLAY "N" NO ADVANCING.
           IF B2 NOT > ZERO
               DISPLAY "Y" NO ADVANCING
           ELSE DISPLAY "N" NO ADVANCING.
           DISPLAY " 182".
           IF B3 = B1
               DISPLAY "Y" NO ADVANCING
           ELSE DISPLAY "N" NO ADVANCING.
           IF B3 < B1
               DISPLAY "Y" NO ADVANCING
           ELSE DISPLAY "N" NO ADVANCING.
           IF B3 NOT > B1
               DISPLAY "Y" NO ADVANCING
           ELSE DISPLAY "N" NO ADVANCING.
           DISPLAY " 183".
           IF B3 = P1
               DISPLAY "Y" NO ADVANCING
           ELSE DISPLAY "N" NO ADVANCING.
           IF B3 < P1
               DISPLAY "Y" NO ADVANCING
           ELSE DISPLAY "N" NO ADVANCING.
           IF B3 NOT > P1
               DISPLAY "Y" NO ADVANCING
           ELSE DISPLAY "N" NO ADVANCING.
           DISPLAY " 184".
           IF B3 = P3
               DISPLAY "Y" NO ADVANCING
           ELSE DISPLAY "N" NO ADVANCING.
           IF B3 < P3
               DISPLAY "Y" NO ADVANCING
           ELSE DISPLAY "N" NO ADVANCING.
           IF B3 NOT > P3
               DISPLAY "Y" NO ADVANCING
           ELSE DISPLAY "N" NO ADVANCING.
           DISPLAY " 185".
           IF B3 = A3
               DISPLAY "Y" NO ADVANCING
           ELSE DISPLAY "N" NO ADVANCING.
           IF B3 < A3
               DISPLAY "Y" NO ADVANCING
           ELSE DISPLAY "N" NO ADVANCING.
           IF B3 NOT > A3
               DISPLAY "Y" NO ADVANCING
           ELSE DISPLAY "N" NO ADVANCING.
           DISPLAY " 186".
           IF B3 = A5
               DISPLAY "Y" NO ADVANCING
           ELSE DISPLAY "N" NO ADVANCING.
           IF B3 < A5
               DISPLAY "Y" NO ADVANCING
           ELSE DISPLAY "N" NO ADVANCING.
           IF B3 NOT > A5
               DISPLAY "Y" NO ADVANCING
           ELSE DISPLAY "N" NO ADVANCING.
           DISPLAY " 187".
           IF B3 = 7
               DISPLAY "Y" NO ADVANCING
           ELSE DISPLAY "N" NO ADVANCING.
           IF B3 < 7
               DISPLAY "Y" NO ADVANCING
           ELSE DISPLAY "N" NO ADVANCING.
           IF B3 NOT > 7
               DISPLAY "Y" NO ADVANCING
           ELSE DISPLAY "N" NO ADVANCING.
           DISPLAY " 188".
           IF B3 = 98.7
               DISPLAY "Y" NO ADVANCING
           ELSE DISPLAY "N" NO ADVANCING.
           IF B3 < 98.7
               DISPLAY "Y" NO ADVANCING
           ELSE DISPLAY "N" NO ADVANCING.
           IF B3 NOT > 98.7
               DISPLAY "Y" NO ADVANCING
           ELSE DISPLAY "N" NO ADVANCING.
           DISPLAY " 189".
           IF B3 = ZERO
               DISPLAY "Y" NO ADVANCING
           ELSE DISPLAY "N" NO ADVANCING.
           IF B3 < ZERO
               DISPLAY "Y" NO ADVANCING
           ELSE DISPLAY "N" NO ADVANCING.
           IF B3 NOT > ZERO
               DISPLAY "Y" NO ADVANCING
           ELSE DISPLAY "N" NO ADVANCING.
           DISPLAY " 190".
           IF P1 = B1
               DISPLAY "Y" NO ADVANCING
           ELSE DISPLAY "N" NO ADVANCING.
           IF P1 < B1
               DISPLAY "Y" NO ADVANCING
           ELSE DISPLAY "N" NO ADVANCING.
           IF P1 NOT > B1
               DISPLAY "Y" NO ADVANCING
           ELSE DISPLAY "N" NO ADVANCING.
           DISPLAY " 191".
           IF P1 = B3
               DISPLAY "Y" NO ADVANCING
           ELSE DISPLAY "N" NO ADVANCING.
           IF P1 < B3
               DISPLAY "Y" NO ADVANCING
           ELSE DISPLAY "N" NO ADVANCING.
           IF P1 NOT > B3
               DISPLAY "Y" NO ADVANCING
           ELSE DISPLAY "N" NO ADVANCING.
           DISPLAY " 192".
           IF P1 = P3
               DISPLAY "Y" NO ADVANCING
           ELSE DISPLAY "N" NO ADVANCING.
           IF P1 < P3
               DISPLAY "Y" NO ADVANCING
           ELSE DISPLAY "N" NO ADVANCING.
           IF P1 NOT > P3
               DISPLAY "Y" NO ADVANCING
           ELSE DISPLAY "N" NO ADVANCING.
           DISPLAY " 193".
           IF P1 = A3
               DISPLAY "Y" NO ADVANCING
           ELSE DISPLAY "N" NO ADVANCING.
           IF P1 < A3
               DISPLAY "Y" NO ADVANCING
           ELSE DISPLAY "N" NO ADVANCING.
           IF P1 NOT > A3
               DISPLAY "Y" NO ADVANCING
           ELSE DISPLAY "N" NO ADVANCING.
           DISPLAY " 194".
           IF P1 = A5
               DISPLAY "Y" NO ADVANCING
           ELSE DISPLAY "N" NO ADVANCING.
           IF P1 < A5
               DISPLAY "Y" NO ADVANCING
           ELSE DISPLAY "N" NO ADVANCING.
           IF P1 NOT > A5
               DISPLAY "Y" NO ADVANCING
           ELSE DISPLAY "N" NO ADVANCING.
           DISPLAY " 195".
           IF P1 = 7
               DISPLAY "Y" NO ADVANCING
           ELSE DISPLAY "N" NO ADVANCING.
           IF P1 < 7
               DISPLAY "Y" NO ADVANCING
           ELSE DISPLAY "N" NO ADVANCING.
           IF P1 NOT > 7
               DISPLAY "Y" NO ADVANCING
           ELSE DISPLAY "N" NO ADVANCING.
           DISPLAY " 196".
           IF P1 = 98.7
               DISPLAY "Y" NO ADVANCING
           ELSE DISPLAY "N" NO ADVANCING.
           IF P1 < 98.7
               DISPLAY "Y" NO ADVANCING
           ELSE DISPLAY "N" NO ADVANCING.
           IF P1 NOT > 98.7
               DISPLAY "Y" NO ADVANCING
           ELSE DISPLAY "N" NO ADVANCING.
           DISPLAY " 197".
           IF P1 = ZERO
               DISPLAY "Y" NO ADVANCING
           ELSE DISPLAY "N" NO ADVANCING.
           IF P1 < ZERO
               DISPLAY "Y" NO ADVANCING
           ELSE DISPLAY "N" NO ADVANCING.
           IF P1 NOT > ZERO
               DISPLAY "Y" NO ADVANCING
           ELSE DISPLAY "N" NO ADVANCING.
           DISPLAY " 198".
           IF P2 = B1
               DISPLAY "Y" NO ADVANCING
           ELSE DISPLAY "N" NO ADVANCING.
           IF P2 < B1
               DISPLAY "Y" NO ADVANCING
           ELSE DISPLAY "N" NO ADVANCING.
           IF P2 NOT > B1
               DISPLAY "Y" NO ADVANCING
           ELSE DISPLAY "N" NO ADVANCING.
           DISPLAY " 199".
           IF P2 = B3
               DISPLAY "Y" NO ADVANCING
           ELSE DISPLAY "N" NO ADVANCING.
           IF P2 < B3
               DISPLAY "Y" NO ADVANCING
           ELSE DISPLAY "N" NO ADVANCING.
           IF P2 NOT > B3
               DISPLAY "Y" NO ADVANCING
           ELSE DISPLAY "N" NO ADVANCING.
           DISPLAY " 200".
           IF P2 = P1
               DISPLAY "Y" NO ADVANCING
           ELSE DISPLAY "N" NO ADVANCING.
           IF P2 < P1
               DISPLAY "Y" NO ADVANCING
           ELSE DISPLAY "N" NO ADVANCING.
           IF P2 NOT > P1
               DISPLAY "Y" NO ADVANCING
           ELSE DISPLAY "N" NO ADVANCING.
           DISPLAY " 201".
           IF P2 = P3
               DISPLAY "Y" NO ADVANCING
           ELSE DISPLAY "N" NO ADVANCING.
           IF P2 < P3
               DISPLAY "Y" NO ADVANCING
           ELSE DISPLAY "N" NO ADVANCING.
           IF P2 NOT > P3
               DISPLAY "Y" NO ADVANCING
           ELSE DISPLAY "N" NO ADVANCING.
           DISPLAY " 202".
           IF P2 = A3
               DISPLAY "Y" NO ADVANCING
           ELSE DISPLAY "N" NO ADVANCING.
           IF P2 < A3
               DISPLAY "Y" NO ADVANCING
           ELSE DISPLAY "N" NO ADVANCING.
           IF P2 NOT > A3
               DISPLAY "Y" NO ADVANCING
           ELSE DISPLAY "N" NO ADVANCING.
           DISPLAY " 203".
           IF P2 = A5
               DISPLAY "Y" NO ADVANCING
           ELSE DISPLAY "N" NO ADVANCING.
           IF P2 < A5
               DISPLAY "Y" NO ADVANCING
           ELSE DISPLAY "N" NO ADVANCING.
           IF P2 NOT > A5
               DISPLAY "Y" NO ADVANCING
           ELSE DISPLAY "N" NO ADVANCING.
           DISPLAY " 204".
           IF P2 = 7
               DISPLAY "Y" NO ADVANCING
           ELSE DISPLAY "N" NO ADVANCING.
           IF P2 < 7
               DISPLAY "Y" NO ADVANCING
           ELSE DISPLAY "N" NO ADVANCING.
           IF P2 NOT > 7
               DISPLAY "Y" NO ADVANCING
           ELSE DISPLAY "N" NO ADVANCING.
           DISPLAY " 205".
           IF P2 = 98.7
               DISPLAY "Y" NO ADVANCING
           ELSE DISPLAY "N" NO ADVANCING.
           IF P2 < 98.7
               DISPLAY "Y" NO ADVANCING
           ELSE DISPLAY "N" NO ADVANCING.
           IF P2 NOT > 98.7
               DISPLAY "Y" NO ADVANCING
           ELSE DISPLAY "N" NO ADVANCING.
           DISPLAY " 206".
           IF P2 = ZERO
               DISPLAY "Y" NO ADVANCING
           ELSE DISPLAY "N" NO ADVANCING.
           IF P2 < ZERO
               DISPLAY "Y" NO ADVANCING
           ELSE DISPLAY "N" NO ADVANCING.
           IF P2 NOT > ZERO
               DISPLAY "Y" NO ADVANCING
           ELSE DISPLAY "N" NO ADVANCING.
           DISPLAY " 207".
           IF P3 = B1
               DISPLAY "Y" NO ADVANCING
           ELSE DISPLAY "N" NO ADVANCING.
           IF P3 < B1
               DISPLAY "Y" NO ADVANCING
           ELSE DISPLAY "N" NO ADVANCING.
           IF P3 NOT > B1
               DISPLAY "Y" NO ADVANCING
           ELSE DISPLAY "N" NO ADVANCING.
           DISPLAY " 208".
           IF P3 = B3
               DISPLAY "Y" NO ADVANCING
           ELSE DISPLAY "N" NO ADVANCING.
           IF P3 < B3
               DISPLAY "Y" NO ADVANCING
           ELSE DISPLAY "N" NO ADVANCING.
           IF P3 NOT > B3
               DISPLAY "Y" NO ADVANCING
           ELSE DISPLAY "N" NO ADVANCING.
           DISPLAY " 209".
           IF P3 = P1
               DISPLAY "Y" NO ADVANCING
           ELSE DISPLAY "N" NO ADVANCING.
           IF P3 < P1
               DISPLAY "Y" NO ADVANCING
           ELSE DISPLAY "N" NO ADVANCING.
           IF P3 NOT > P1
               DISPLAY "Y" NO ADVANCING
           ELSE DISPLAY "N" NO ADVANCING.
           DISPLAY " 210".
           IF P3 = A3
               DISPLAY "Y" NO ADVANCING
           ELSE DISPLAY "N" NO ADVANCING.
           IF P3 < A3
               DISPLAY "Y" NO ADVANCING
           ELSE DISPLAY "N" NO ADVANCING.
           IF P3 NOT > A3
               DISPLAY "Y" NO ADVANCING
           ELSE DISPLAY "N" NO ADVANCING.
           DISPLAY " 211".
           IF P3 = A5
               DISPLAY "Y" NO ADVANCING
           ELSE DISPLAY "N" NO ADVANCING.
           IF P3 < A5
               DISPLAY "Y" NO ADVANCING
           ELSE DISPLAY "N" NO ADVANCING.
           IF P3 NOT > A5
               DISPLAY "Y" NO ADVANCING
           ELSE DISPLAY "N" NO ADVANCING.
           DISPLAY " 212".
           IF P3 = 7
               DISPLAY "Y" NO ADVANCING
           ELSE DISPLAY "N" NO ADVANCING.
           IF P3 < 7
               DISPLAY "Y" NO ADVANCING
           ELSE DISPLAY "N" NO ADVANCING.
           IF P3 NOT > 7
               DISPLAY "Y" NO ADVANCING
           ELSE DISPLAY "N" NO ADVANCING.
           DISPLAY " 213".
           IF P3 = 98.7
               DISPLAY "Y" NO ADVANCING
           ELSE DISPLAY "N" NO ADVANCING.
           IF P3 < 98.7
               DISPLAY "Y" NO ADVANCING
           ELSE DISPLAY "N" NO ADVANCING.
           IF P3 NOT > 98.7
               DISPLAY "Y" NO ADVANCING
           ELSE DISPLAY "N" NO ADVANCING.
           DISPLAY " 214".
           IF P3 = ZERO
               DISPLAY "Y" NO ADVANCING
           ELSE DISPLAY "N" NO ADVANCING.
           IF P3 < ZERO
               DISPLAY "Y" NO ADVANCING
           ELSE DISPLAY "N" NO ADVANCING.
           IF P3 NOT > ZERO
               DISPLAY "Y" NO ADVANCING
           ELSE DISPLAY "N" NO ADVANCING.
           DISPLAY " 215".
           IF P4 = B1
               DISPLAY "Y" NO ADVANCING
           ELSE DISPLAY "N" NO ADVANCING.
           IF P4 < B1
               DISPLAY "Y" NO ADVANCING
           ELSE DISPLAY "N" NO ADVANCING.
           IF P4 NOT > B1
               DISPLAY "Y" NO ADVANCING
           ELSE DISPLAY "N" NO ADVANCING.
           DISPLAY " 216".
           IF P4 = B3
               DISPLAY "Y" NO ADVANCING
           ELSE DISPLAY "N" NO ADVANCING.
           IF P4 < B3
               DISPLAY "Y" NO ADVANCING
           ELSE DISPLAY "N" NO ADVANCING.
           IF P4 NOT > B3
               DISPLAY "Y" NO ADVANCING
           ELSE DISPLAY "N" NO ADVANCING.
           DISPLAY " 217".
           IF P4 = P1
               DISPLAY "Y" NO ADVANCING
           ELSE DISPLAY "N" NO ADVANCING.
           IF P4 < P1
               DISPLAY "Y" NO ADVANCING
           ELSE DISPLAY "N" NO ADVANCING.
           IF P4 NOT > P1
               DISPLAY "Y" NO ADVANCING
           ELSE DISPLAY "N" NO ADVANCING.
           DISPLAY " 218".
           IF P4 = P3
               DISPLAY "Y" NO ADVANCING
           ELSE DISPLAY "N" NO ADVANCING.
           IF P4 < P3
               DISPLAY "Y" NO ADVANCING
           ELSE DISPLAY "N" NO ADVANCING.
           IF P4 NOT > P3
               DISPLAY "Y" NO ADVANCING
           ELSE DISPLAY "N" NO ADVANCING.
           DISPLAY " 219".
           IF P4 = A3
               DISPLAY "Y" NO ADVANCING
           ELSE DISPLAY "N" NO ADVANCING.
           IF P4 < A3
               DISPLAY "Y" NO ADVANCING
           ELSE DISPLAY "N" NO ADVANCING.
           IF P4 NOT > A3
               DISPLAY "Y" NO ADVANCING
           ELSE DISPLAY "N" NO ADVANCING.
           DISPLAY " 220".
           IF P4 = A5
               DISPLAY "Y" NO ADVANCING
           ELSE DISPLAY "N" NO ADVANCING.
           IF P4 < A5
               DISPLAY "Y" NO ADVANCING
           ELSE DISPLAY "N" NO ADVANCING.
           IF P4 NOT > A5
               DISPLAY "Y" NO ADVANCING
           ELSE DISPLAY "N" NO ADVANCING.
           DISPLAY " 221".
           IF P4 = 7
               DISPLAY "Y" NO ADVANCING
           ELSE DISPLAY "N" NO ADVANCING.
           IF P4 < 7
               DISPLAY "Y" NO ADVANCING
           ELSE DISPLAY "N" NO ADVANCING.
           IF P4 NOT > 7
               DISPLAY "Y" NO ADVANCING
           ELSE DISPLAY "N" NO ADVANCING.
           DISPLAY " 222".
           IF P4 = 98.7
               DISPLAY "Y" NO ADVANCING
           ELSE DISPLAY "N" NO ADVANCING.
           IF P4 < 98.7
               DISPLAY "Y" NO ADVANCING
           ELSE DISPLAY "N" NO ADVANCING.
           IF P4 NOT > 98.7
               DISPLAY "Y" NO ADVANCING
           ELSE DISPLAY "N" NO ADVANCING.
           DISPLAY " 223".
           IF P4 = ZERO
               DISPLAY "Y" NO ADVANCING
           ELSE DISPLAY "N" NO ADVANCING.
           IF P4 < ZERO
               DISPLAY "Y" NO ADVANCING
           ELSE DISPLAY "N" NO ADVANCING.
           IF P4 NOT > ZERO
               DISPLAY "Y" NO ADVANCING
           ELSE DISPLAY "N" NO ADVANCING.
           DISPLAY " 224".
           STOP RUN.
