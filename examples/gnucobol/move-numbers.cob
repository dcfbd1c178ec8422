       IDENTIFICATION DIVISION.
       PROGRAM-ID. MOVE-NUMBERS.
       DATA DIVISION.
       WORKING-STORAGE SECTION.
       01 A1 PIC 9 VALUE 7.
       01 A1-X REDEFINES A1 PIC X(1).
       01 A2 PIC 9(5) VALUE 12345.
       01 A2-X REDEFINES A2 PIC X(5).
       01 A3 PIC 9(3)V99 VALUE 123.45.
       01 A3-X REDEFINES A3 PIC X(5).
       01 A4 PIC S9(4) VALUE -1234.
       01 A4-X REDEFINES A4 PIC X(4).
       01 A5 PIC S9(2)V9(3) VALUE -12.345.
       01 A5-X REDEFINES A5 PIC X(5).
       01 A6 PIC V9(4) VALUE 0.9876.
       01 A6-X REDEFINES A6 PIC X(4).
       01 A7 PIC S9(3) SIGN LEADING SEPARATE VALUE -120.
       01 A7-X REDEFINES A7 PIC X(4).
       01 A8 PIC S9(2)V9 SIGN TRAILING SEPARATE VALUE +98.7.
       01 A8-X REDEFINES A8 PIC X(4).
       01 A9 PIC S9(9)V9(9) VALUE -123456789.987654321.
       01 A9-X REDEFINES A9 PIC X(18).
       01 A10 PIC 9(18) VALUE 998877665544332211.
       01 A10-X REDEFINES A10 PIC X(18).
       01 R1 PIC 9 VALUE 0.
       01 R1-X REDEFINES R1 PIC X(1).
       01 R2 PIC 9(4) VALUE 0.
       01 R2-X REDEFINES R2 PIC X(4).
       01 R3 PIC 9(2)V9 VALUE 0.
       01 R3-X REDEFINES R3 PIC X(3).
       01 R4 PIC S9(3) VALUE 0.
       01 R4-X REDEFINES R4 PIC X(3).
       01 R5 PIC S9(2)V9(2) VALUE 0.
       01 R5-X REDEFINES R5 PIC X(4).
       01 R6 PIC V9(3) VALUE 0.
       01 R6-X REDEFINES R6 PIC X(3).
       01 R7 PIC S9(4)V9 SIGN LEADING SEPARATE VALUE 0.
       01 R7-X REDEFINES R7 PIC X(6).
       01 R8 PIC S9(2) SIGN TRAILING SEPARATE VALUE 0.
       01 R8-X REDEFINES R8 PIC X(3).
       PROCEDURE DIVISION.
       CASES.
           MOVE A1 TO R1
           DISPLAY "001 [" R1-X "]"
           MOVE A1 TO R2
           DISPLAY "002 [" R2-X "]"
           MOVE A1 TO R3
           DISPLAY "003 [" R3-X "]"
           MOVE A1 TO R4
           DISPLAY "004 [" R4-X "]"
           MOVE A1 TO R5
           DISPLAY "005 [" R5-X "]"
           MOVE A1 TO R6
           DISPLAY "006 [" R6-X "]"
           MOVE A1 TO R7
           DISPLAY "007 [" R7-X "]"
           MOVE A1 TO R8
           DISPLAY "008 [" R8-X "]"
           MOVE A2 TO R1
           DISPLAY "009 [" R1-X "]"
           MOVE A2 TO R2
           DISPLAY "010 [" R2-X "]"
           MOVE A2 TO R3
           DISPLAY "011 [" R3-X "]"
           MOVE A2 TO R4
           DISPLAY "012 [" R4-X "]"
           MOVE A2 TO R5
           DISPLAY "013 [" R5-X "]"
           MOVE A2 TO R6
           DISPLAY "014 [" R6-X "]"
           MOVE A2 TO R7
           DISPLAY "015 [" R7-X "]"
           MOVE A2 TO R8
           DISPLAY "016 [" R8-X "]"
           MOVE A3 TO R1
           DISPLAY "017 [" R1-X "]"
           MOVE A3 TO R2
           DISPLAY "018 [" R2-X "]"
           MOVE A3 TO R3
           DISPLAY "019 [" R3-X "]"
           MOVE A3 TO R4
           DISPLAY "020 [" R4-X "]"
           MOVE A3 TO R5
           DISPLAY "021 [" R5-X "]"
           MOVE A3 TO R6
           DISPLAY "022 [" R6-X "]"
           MOVE A3 TO R7
           DISPLAY "023 [" R7-X "]"
           MOVE A3 TO R8
           DISPLAY "024 [" R8-X "]"
           MOVE A4 TO R1
           DISPLAY "025 [" R1-X "]"
           MOVE A4 TO R2
           DISPLAY "026 [" R2-X "]"
           MOVE A4 TO R3
           DISPLAY "027 [" R3-X "]"
           MOVE A4 TO R4
           DISPLAY "028 [" R4-X "]"
           MOVE A4 TO R5
           DISPLAY "029 [" R5-X "]"
           MOVE A4 TO R6
           DISPLAY "030 [" R6-X "]"
           MOVE A4 TO R7
           DISPLAY "031 [" R7-X "]"
           MOVE A4 TO R8
           DISPLAY "032 [" R8-X "]"
           MOVE A5 TO R1
           DISPLAY "033 [" R1-X "]"
           MOVE A5 TO R2
           DISPLAY "034 [" R2-X "]"
           MOVE A5 TO R3
           DISPLAY "035 [" R3-X "]"
           MOVE A5 TO R4
           DISPLAY "036 [" R4-X "]"
           MOVE A5 TO R5
           DISPLAY "037 [" R5-X "]"
           MOVE A5 TO R6
           DISPLAY "038 [" R6-X "]"
           MOVE A5 TO R7
           DISPLAY "039 [" R7-X "]"
           MOVE A5 TO R8
           DISPLAY "040 [" R8-X "]"
           MOVE A6 TO R1
           DISPLAY "041 [" R1-X "]"
           MOVE A6 TO R2
           DISPLAY "042 [" R2-X "]"
           MOVE A6 TO R3
           DISPLAY "043 [" R3-X "]"
           MOVE A6 TO R4
           DISPLAY "044 [" R4-X "]"
           MOVE A6 TO R5
           DISPLAY "045 [" R5-X "]"
           MOVE A6 TO R6
           DISPLAY "046 [" R6-X "]"
           MOVE A6 TO R7
           DISPLAY "047 [" R7-X "]"
           MOVE A6 TO R8
           DISPLAY "048 [" R8-X "]"
           MOVE A7 TO R1
           DISPLAY "049 [" R1-X "]"
           MOVE A7 TO R2
           DISPLAY "050 [" R2-X "]"
           MOVE A7 TO R3
           DISPLAY "051 [" R3-X "]"
           MOVE A7 TO R4
           DISPLAY "052 [" R4-X "]"
           MOVE A7 TO R5
           DISPLAY "053 [" R5-X "]"
           MOVE A7 TO R6
           DISPLAY "054 [" R6-X "]"
           MOVE A7 TO R7
           DISPLAY "055 [" R7-X "]"
           MOVE A7 TO R8
           DISPLAY "056 [" R8-X "]"
           MOVE A8 TO R1
           DISPLAY "057 [" R1-X "]"
           MOVE A8 TO R2
           DISPLAY "058 [" R2-X "]"
           MOVE A8 TO R3
           DISPLAY "059 [" R3-X "]"
           MOVE A8 TO R4
           DISPLAY "060 [" R4-X "]"
           MOVE A8 TO R5
           DISPLAY "061 [" R5-X "]"
           MOVE A8 TO R6
           DISPLAY "062 [" R6-X "]"
           MOVE A8 TO R7
           DISPLAY "063 [" R7-X "]"
           MOVE A8 TO R8
           DISPLAY "064 [" R8-X "]"
           MOVE A9 TO R1
           DISPLAY "065 [" R1-X "]"
           MOVE A9 TO R2
           DISPLAY "066 [" R2-X "]"
           MOVE A9 TO R3
           DISPLAY "067 [" R3-X "]"
           MOVE A9 TO R4
           DISPLAY "068 [" R4-X "]"
           MOVE A9 TO R5
           DISPLAY "069 [" R5-X "]"
           MOVE A9 TO R6
           DISPLAY "070 [" R6-X "]"
           MOVE A9 TO R7
           DISPLAY "071 [" R7-X "]"
           MOVE A9 TO R8
           DISPLAY "072 [" R8-X "]"
           MOVE A10 TO R1
           DISPLAY "073 [" R1-X "]"
           MOVE A10 TO R2
           DISPLAY "074 [" R2-X "]"
           MOVE A10 TO R3
           DISPLAY "075 [" R3-X "]"
           MOVE A10 TO R4
           DISPLAY "076 [" R4-X "]"
           MOVE A10 TO R5
           DISPLAY "077 [" R5-X "]"
           MOVE A10 TO R6
           DISPLAY "078 [" R6-X "]"
           MOVE A10 TO R7
           DISPLAY "079 [" R7-X "]"
           MOVE A10 TO R8
           DISPLAY "080 [" R8-X "]"
           MOVE 0 TO R1
           DISPLAY "081 [" R1-X "]"
           MOVE 0 TO R2
           DISPLAY "082 [" R2-X "]"
           MOVE 0 TO R3
           DISPLAY "083 [" R3-X "]"
           MOVE 0 TO R4
           DISPLAY "084 [" R4-X "]"
           MOVE 0 TO R5
           DISPLAY "085 [" R5-X "]"
           MOVE 0 TO R6
           DISPLAY "086 [" R6-X "]"
           MOVE 0 TO R7
           DISPLAY "087 [" R7-X "]"
           MOVE 0 TO R8
           DISPLAY "088 [" R8-X "]"
           MOVE 7 TO R1
           DISPLAY "089 [" R1-X "]"
           MOVE 7 TO R2
           DISPLAY "090 [" R2-X "]"
           MOVE 7 TO R3
           DISPLAY "091 [" R3-X "]"
           MOVE 7 TO R4
           DISPLAY "092 [" R4-X "]"
           MOVE 7 TO R5
           DISPLAY "093 [" R5-X "]"
           MOVE 7 TO R6
           DISPLAY "094 [" R6-X "]"
           MOVE 7 TO R7
           DISPLAY "095 [" R7-X "]"
           MOVE 7 TO R8
           DISPLAY "096 [" R8-X "]"
           MOVE -7 TO R1
           DISPLAY "097 [" R1-X "]"
           MOVE -7 TO R2
           DISPLAY "098 [" R2-X "]"
           MOVE -7 TO R3
           DISPLAY "099 [" R3-X "]"
           MOVE -7 TO R4
           DISPLAY "100 [" R4-X "]"
           MOVE -7 TO R5
           DISPLAY "101 [" R5-X "]"
           MOVE -7 TO R6
           DISPLAY "102 [" R6-X "]"
           MOVE -7 TO R7
           DISPLAY "103 [" R7-X "]"
           MOVE -7 TO R8
           DISPLAY "104 [" R8-X "]"
           MOVE +123.456 TO R1
           DISPLAY "105 [" R1-X "]"
           MOVE +123.456 TO R2
           DISPLAY "106 [" R2-X "]"
           MOVE +123.456 TO R3
           DISPLAY "107 [" R3-X "]"
           MOVE +123.456 TO R4
           DISPLAY "108 [" R4-X "]"
           MOVE +123.456 TO R5
           DISPLAY "109 [" R5-X "]"
           MOVE +123.456 TO R6
           DISPLAY "110 [" R6-X "]"
           MOVE +123.456 TO R7
           DISPLAY "111 [" R7-X "]"
           MOVE +123.456 TO R8
           DISPLAY "112 [" R8-X "]"
           MOVE -0.05 TO R1
           DISPLAY "113 [" R1-X "]"
           MOVE -0.05 TO R2
           DISPLAY "114 [" R2-X "]"
           MOVE -0.05 TO R3
           DISPLAY "115 [" R3-X "]"
           MOVE -0.05 TO R5
           DISPLAY "116 [" R5-X "]"
           MOVE -0.05 TO R6
           DISPLAY "117 [" R6-X "]"
           MOVE 99999 TO R1
           DISPLAY "118 [" R1-X "]"
           MOVE 99999 TO R2
           DISPLAY "119 [" R2-X "]"
           MOVE 99999 TO R3
           DISPLAY "120 [" R3-X "]"
           MOVE 99999 TO R4
           DISPLAY "121 [" R4-X "]"
           MOVE 99999 TO R5
           DISPLAY "122 [" R5-X "]"
           MOVE 99999 TO R6
           DISPLAY "123 [" R6-X "]"
           MOVE 99999 TO R7
           DISPLAY "124 [" R7-X "]"
           MOVE 99999 TO R8
           DISPLAY "125 [" R8-X "]"
           MOVE .5 TO R1
           DISPLAY "126 [" R1-X "]"
           MOVE .5 TO R2
           DISPLAY "127 [" R2-X "]"
           MOVE .5 TO R3
           DISPLAY "128 [" R3-X "]"
           MOVE .5 TO R4
           DISPLAY "129 [" R4-X "]"
           MOVE .5 TO R5
           DISPLAY "130 [" R5-X "]"
           MOVE .5 TO R6
           DISPLAY "131 [" R6-X "]"
           MOVE .5 TO R7
           DISPLAY "132 [" R7-X "]"
           MOVE .5 TO R8
           DISPLAY "133 [" R8-X "]"
           MOVE ZERO TO R1
           DISPLAY "134 [" R1-X "]"
           MOVE ZERO TO R2
           DISPLAY "135 [" R2-X "]"
           MOVE ZERO TO R3
           DISPLAY "136 [" R3-X "]"
           MOVE ZERO TO R4
           DISPLAY "137 [" R4-X "]"
           MOVE ZERO TO R5
           DISPLAY "138 [" R5-X "]"
           MOVE ZERO TO R6
           DISPLAY "139 [" R6-X "]"
           MOVE ZERO TO R7
           DISPLAY "140 [" R7-X "]"
           MOVE ZERO TO R8
           DISPLAY "141 [" R8-X "]"
           STOP RUN.
