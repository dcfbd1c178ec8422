       IDENTIFICATION DIVISION.
       PROGRAM-ID. ADD-SUBTRACT.
       DATA DIVISION.
       WORKING-STORAGE SECTION.
       01 A1 PIC 9 VALUE 7.
       01 A1-X REDEFINES A1 PIC X(1).
       01 A2 PIC 9(4) VALUE 9876.
       01 A2-X REDEFINES A2 PIC X(4).
       01 A3 PIC 9(2)V99 VALUE 12.35.
       01 A3-X REDEFINES A3 PIC X(4).
       01 A4 PIC S9(3) VALUE -250.
       01 A4-X REDEFINES A4 PIC X(3).
       01 A5 PIC S9V9(4) VALUE -1.2345.
       01 A5-X REDEFINES A5 PIC X(5).
       01 R1 PIC 9(2) VALUE 50.
       01 R1-X REDEFINES R1 PIC X(2).
       01 R2 PIC S9(3)V9 VALUE -100.5.
       01 R2-X REDEFINES R2 PIC X(4).
       01 R3 PIC 9(5)V99 VALUE 99990.25.
       01 R3-X REDEFINES R3 PIC X(7).
       01 R4 PIC S9(2) SIGN LEADING SEPARATE VALUE 10.
       01 R4-X REDEFINES R4 PIC X(3).
       01 SIZE-X PIC X.
       PROCEDURE DIVISION.
       CASES.
           MOVE 50 TO R1
           ADD A1 TO R1
           DISPLAY "001 [" R1-X "]"
           MOVE 50 TO R1
           ADD A1 TO R1 ROUNDED
               ON SIZE ERROR MOVE "E" TO SIZE-X
               NOT ON SIZE ERROR MOVE "-" TO SIZE-X
           END-ADD
           DISPLAY "002 [" R1-X SIZE-X "]"
           MOVE -100.5 TO R2
           ADD A1 TO R2
           DISPLAY "003 [" R2-X "]"
           MOVE -100.5 TO R2
           ADD A1 TO R2 ROUNDED
               ON SIZE ERROR MOVE "E" TO SIZE-X
               NOT ON SIZE ERROR MOVE "-" TO SIZE-X
           END-ADD
           DISPLAY "004 [" R2-X SIZE-X "]"
           MOVE 99990.25 TO R3
           ADD A1 TO R3
           DISPLAY "005 [" R3-X "]"
           MOVE 99990.25 TO R3
           ADD A1 TO R3 ROUNDED
               ON SIZE ERROR MOVE "E" TO SIZE-X
               NOT ON SIZE ERROR MOVE "-" TO SIZE-X
           END-ADD
           DISPLAY "006 [" R3-X SIZE-X "]"
           MOVE 10 TO R4
           ADD A1 TO R4
           DISPLAY "007 [" R4-X "]"
           MOVE 10 TO R4
           ADD A1 TO R4 ROUNDED
               ON SIZE ERROR MOVE "E" TO SIZE-X
               NOT ON SIZE ERROR MOVE "-" TO SIZE-X
           END-ADD
           DISPLAY "008 [" R4-X SIZE-X "]"
           MOVE 50 TO R1
           ADD A2 TO R1
           DISPLAY "009 [" R1-X "]"
           MOVE 50 TO R1
           ADD A2 TO R1 ROUNDED
               ON SIZE ERROR MOVE "E" TO SIZE-X
               NOT ON SIZE ERROR MOVE "-" TO SIZE-X
           END-ADD
           DISPLAY "010 [" R1-X SIZE-X "]"
           MOVE -100.5 TO R2
           ADD A2 TO R2
           DISPLAY "011 [" R2-X "]"
           MOVE -100.5 TO R2
           ADD A2 TO R2 ROUNDED
               ON SIZE ERROR MOVE "E" TO SIZE-X
               NOT ON SIZE ERROR MOVE "-" TO SIZE-X
           END-ADD
           DISPLAY "012 [" R2-X SIZE-X "]"
           MOVE 99990.25 TO R3
           ADD A2 TO R3
           DISPLAY "013 [" R3-X "]"
           MOVE 99990.25 TO R3
           ADD A2 TO R3 ROUNDED
               ON SIZE ERROR MOVE "E" TO SIZE-X
               NOT ON SIZE ERROR MOVE "-" TO SIZE-X
           END-ADD
           DISPLAY "014 [" R3-X SIZE-X "]"
           MOVE 10 TO R4
           ADD A2 TO R4
           DISPLAY "015 [" R4-X "]"
           MOVE 10 TO R4
           ADD A2 TO R4 ROUNDED
               ON SIZE ERROR MOVE "E" TO SIZE-X
               NOT ON SIZE ERROR MOVE "-" TO SIZE-X
           END-ADD
           DISPLAY "016 [" R4-X SIZE-X "]"
           MOVE 50 TO R1
           ADD A3 TO R1
           DISPLAY "017 [" R1-X "]"
           MOVE 50 TO R1
           ADD A3 TO R1 ROUNDED
               ON SIZE ERROR MOVE "E" TO SIZE-X
               NOT ON SIZE ERROR MOVE "-" TO SIZE-X
           END-ADD
           DISPLAY "018 [" R1-X SIZE-X "]"
           MOVE -100.5 TO R2
           ADD A3 TO R2
           DISPLAY "019 [" R2-X "]"
           MOVE -100.5 TO R2
           ADD A3 TO R2 ROUNDED
               ON SIZE ERROR MOVE "E" TO SIZE-X
               NOT ON SIZE ERROR MOVE "-" TO SIZE-X
           END-ADD
           DISPLAY "020 [" R2-X SIZE-X "]"
           MOVE 99990.25 TO R3
           ADD A3 TO R3
           DISPLAY "021 [" R3-X "]"
           MOVE 99990.25 TO R3
           ADD A3 TO R3 ROUNDED
               ON SIZE ERROR MOVE "E" TO SIZE-X
               NOT ON SIZE ERROR MOVE "-" TO SIZE-X
           END-ADD
           DISPLAY "022 [" R3-X SIZE-X "]"
           MOVE 10 TO R4
           ADD A3 TO R4
           DISPLAY "023 [" R4-X "]"
           MOVE 10 TO R4
           ADD A3 TO R4 ROUNDED
               ON SIZE ERROR MOVE "E" TO SIZE-X
               NOT ON SIZE ERROR MOVE "-" TO SIZE-X
           END-ADD
           DISPLAY "024 [" R4-X SIZE-X "]"
           MOVE 50 TO R1
           ADD A4 TO R1
           DISPLAY "025 [" R1-X "]"
           MOVE 50 TO R1
           ADD A4 TO R1 ROUNDED
               ON SIZE ERROR MOVE "E" TO SIZE-X
               NOT ON SIZE ERROR MOVE "-" TO SIZE-X
           END-ADD
           DISPLAY "026 [" R1-X SIZE-X "]"
           MOVE -100.5 TO R2
           ADD A4 TO R2
           DISPLAY "027 [" R2-X "]"
           MOVE -100.5 TO R2
           ADD A4 TO R2 ROUNDED
               ON SIZE ERROR MOVE "E" TO SIZE-X
               NOT ON SIZE ERROR MOVE "-" TO SIZE-X
           END-ADD
           DISPLAY "028 [" R2-X SIZE-X "]"
           MOVE 99990.25 TO R3
           ADD A4 TO R3
           DISPLAY "029 [" R3-X "]"
           MOVE 99990.25 TO R3
           ADD A4 TO R3 ROUNDED
               ON SIZE ERROR MOVE "E" TO SIZE-X
               NOT ON SIZE ERROR MOVE "-" TO SIZE-X
           END-ADD
           DISPLAY "030 [" R3-X SIZE-X "]"
           MOVE 10 TO R4
           ADD A4 TO R4
           DISPLAY "031 [" R4-X "]"
           MOVE 10 TO R4
           ADD A4 TO R4 ROUNDED
               ON SIZE ERROR MOVE "E" TO SIZE-X
               NOT ON SIZE ERROR MOVE "-" TO SIZE-X
           END-ADD
           DISPLAY "032 [" R4-X SIZE-X "]"
           MOVE 50 TO R1
           ADD A5 TO R1
           DISPLAY "033 [" R1-X "]"
           MOVE 50 TO R1
           ADD A5 TO R1 ROUNDED
               ON SIZE ERROR MOVE "E" TO SIZE-X
               NOT ON SIZE ERROR MOVE "-" TO SIZE-X
           END-ADD
           DISPLAY "034 [" R1-X SIZE-X "]"
           MOVE -100.5 TO R2
           ADD A5 TO R2
           DISPLAY "035 [" R2-X "]"
           MOVE -100.5 TO R2
           ADD A5 TO R2 ROUNDED
               ON SIZE ERROR MOVE "E" TO SIZE-X
               NOT ON SIZE ERROR MOVE "-" TO SIZE-X
           END-ADD
           DISPLAY "036 [" R2-X SIZE-X "]"
           MOVE 99990.25 TO R3
           ADD A5 TO R3
           DISPLAY "037 [" R3-X "]"
           MOVE 99990.25 TO R3
           ADD A5 TO R3 ROUNDED
               ON SIZE ERROR MOVE "E" TO SIZE-X
               NOT ON SIZE ERROR MOVE "-" TO SIZE-X
           END-ADD
           DISPLAY "038 [" R3-X SIZE-X "]"
           MOVE 10 TO R4
           ADD A5 TO R4
           DISPLAY "039 [" R4-X "]"
           MOVE 10 TO R4
           ADD A5 TO R4 ROUNDED
               ON SIZE ERROR MOVE "E" TO SIZE-X
               NOT ON SIZE ERROR MOVE "-" TO SIZE-X
           END-ADD
           DISPLAY "040 [" R4-X SIZE-X "]"
           MOVE 50 TO R1
           SUBTRACT A1 FROM R1
           DISPLAY "041 [" R1-X "]"
           MOVE 50 TO R1
           SUBTRACT A1 FROM R1 ROUNDED
               ON SIZE ERROR MOVE "E" TO SIZE-X
               NOT ON SIZE ERROR MOVE "-" TO SIZE-X
           END-SUBTRACT
           DISPLAY "042 [" R1-X SIZE-X "]"
           MOVE -100.5 TO R2
           SUBTRACT A1 FROM R2
           DISPLAY "043 [" R2-X "]"
           MOVE -100.5 TO R2
           SUBTRACT A1 FROM R2 ROUNDED
               ON SIZE ERROR MOVE "E" TO SIZE-X
               NOT ON SIZE ERROR MOVE "-" TO SIZE-X
           END-SUBTRACT
           DISPLAY "044 [" R2-X SIZE-X "]"
           MOVE 99990.25 TO R3
           SUBTRACT A1 FROM R3
           DISPLAY "045 [" R3-X "]"
           MOVE 99990.25 TO R3
           SUBTRACT A1 FROM R3 ROUNDED
               ON SIZE ERROR MOVE "E" TO SIZE-X
               NOT ON SIZE ERROR MOVE "-" TO SIZE-X
           END-SUBTRACT
           DISPLAY "046 [" R3-X SIZE-X "]"
           MOVE 10 TO R4
           SUBTRACT A1 FROM R4
           DISPLAY "047 [" R4-X "]"
           MOVE 10 TO R4
           SUBTRACT A1 FROM R4 ROUNDED
               ON SIZE ERROR MOVE "E" TO SIZE-X
               NOT ON SIZE ERROR MOVE "-" TO SIZE-X
           END-SUBTRACT
           DISPLAY "048 [" R4-X SIZE-X "]"
           MOVE 50 TO R1
           SUBTRACT A2 FROM R1
           DISPLAY "049 [" R1-X "]"
           MOVE 50 TO R1
           SUBTRACT A2 FROM R1 ROUNDED
               ON SIZE ERROR MOVE "E" TO SIZE-X
               NOT ON SIZE ERROR MOVE "-" TO SIZE-X
           END-SUBTRACT
           DISPLAY "050 [" R1-X SIZE-X "]"
           MOVE -100.5 TO R2
           SUBTRACT A2 FROM R2
           DISPLAY "051 [" R2-X "]"
           MOVE -100.5 TO R2
           SUBTRACT A2 FROM R2 ROUNDED
               ON SIZE ERROR MOVE "E" TO SIZE-X
               NOT ON SIZE ERROR MOVE "-" TO SIZE-X
           END-SUBTRACT
           DISPLAY "052 [" R2-X SIZE-X "]"
           MOVE 99990.25 TO R3
           SUBTRACT A2 FROM R3
           DISPLAY "053 [" R3-X "]"
           MOVE 99990.25 TO R3
           SUBTRACT A2 FROM R3 ROUNDED
               ON SIZE ERROR MOVE "E" TO SIZE-X
               NOT ON SIZE ERROR MOVE "-" TO SIZE-X
           END-SUBTRACT
           DISPLAY "054 [" R3-X SIZE-X "]"
           MOVE 10 TO R4
           SUBTRACT A2 FROM R4
           DISPLAY "055 [" R4-X "]"
           MOVE 10 TO R4
           SUBTRACT A2 FROM R4 ROUNDED
               ON SIZE ERROR MOVE "E" TO SIZE-X
               NOT ON SIZE ERROR MOVE "-" TO SIZE-X
           END-SUBTRACT
           DISPLAY "056 [" R4-X SIZE-X "]"
           MOVE 50 TO R1
           SUBTRACT A3 FROM R1
           DISPLAY "057 [" R1-X "]"
           MOVE 50 TO R1
           SUBTRACT A3 FROM R1 ROUNDED
               ON SIZE ERROR MOVE "E" TO SIZE-X
               NOT ON SIZE ERROR MOVE "-" TO SIZE-X
           END-SUBTRACT
           DISPLAY "058 [" R1-X SIZE-X "]"
           MOVE -100.5 TO R2
           SUBTRACT A3 FROM R2
           DISPLAY "059 [" R2-X "]"
           MOVE -100.5 TO R2
           SUBTRACT A3 FROM R2 ROUNDED
               ON SIZE ERROR MOVE "E" TO SIZE-X
               NOT ON SIZE ERROR MOVE "-" TO SIZE-X
           END-SUBTRACT
           DISPLAY "060 [" R2-X SIZE-X "]"
           MOVE 99990.25 TO R3
           SUBTRACT A3 FROM R3
           DISPLAY "061 [" R3-X "]"
           MOVE 99990.25 TO R3
           SUBTRACT A3 FROM R3 ROUNDED
               ON SIZE ERROR MOVE "E" TO SIZE-X
               NOT ON SIZE ERROR MOVE "-" TO SIZE-X
           END-SUBTRACT
           DISPLAY "062 [" R3-X SIZE-X "]"
           MOVE 10 TO R4
           SUBTRACT A3 FROM R4
           DISPLAY "063 [" R4-X "]"
           MOVE 10 TO R4
           SUBTRACT A3 FROM R4 ROUNDED
               ON SIZE ERROR MOVE "E" TO SIZE-X
               NOT ON SIZE ERROR MOVE "-" TO SIZE-X
           END-SUBTRACT
           DISPLAY "064 [" R4-X SIZE-X "]"
           MOVE 50 TO R1
           SUBTRACT A4 FROM R1
           DISPLAY "065 [" R1-X "]"
           MOVE 50 TO R1
           SUBTRACT A4 FROM R1 ROUNDED
               ON SIZE ERROR MOVE "E" TO SIZE-X
               NOT ON SIZE ERROR MOVE "-" TO SIZE-X
           END-SUBTRACT
           DISPLAY "066 [" R1-X SIZE-X "]"
           MOVE -100.5 TO R2
           SUBTRACT A4 FROM R2
           DISPLAY "067 [" R2-X "]"
           MOVE -100.5 TO R2
           SUBTRACT A4 FROM R2 ROUNDED
               ON SIZE ERROR MOVE "E" TO SIZE-X
               NOT ON SIZE ERROR MOVE "-" TO SIZE-X
           END-SUBTRACT
           DISPLAY "068 [" R2-X SIZE-X "]"
           MOVE 99990.25 TO R3
           SUBTRACT A4 FROM R3
           DISPLAY "069 [" R3-X "]"
           MOVE 99990.25 TO R3
           SUBTRACT A4 FROM R3 ROUNDED
               ON SIZE ERROR MOVE "E" TO SIZE-X
               NOT ON SIZE ERROR MOVE "-" TO SIZE-X
           END-SUBTRACT
           DISPLAY "070 [" R3-X SIZE-X "]"
           MOVE 10 TO R4
           SUBTRACT A4 FROM R4
           DISPLAY "071 [" R4-X "]"
           MOVE 10 TO R4
           SUBTRACT A4 FROM R4 ROUNDED
               ON SIZE ERROR MOVE "E" TO SIZE-X
               NOT ON SIZE ERROR MOVE "-" TO SIZE-X
           END-SUBTRACT
           DISPLAY "072 [" R4-X SIZE-X "]"
           MOVE 50 TO R1
           SUBTRACT A5 FROM R1
           DISPLAY "073 [" R1-X "]"
           MOVE 50 TO R1
           SUBTRACT A5 FROM R1 ROUNDED
               ON SIZE ERROR MOVE "E" TO SIZE-X
               NOT ON SIZE ERROR MOVE "-" TO SIZE-X
           END-SUBTRACT
           DISPLAY "074 [" R1-X SIZE-X "]"
           MOVE -100.5 TO R2
           SUBTRACT A5 FROM R2
           DISPLAY "075 [" R2-X "]"
           MOVE -100.5 TO R2
           SUBTRACT A5 FROM R2 ROUNDED
               ON SIZE ERROR MOVE "E" TO SIZE-X
               NOT ON SIZE ERROR MOVE "-" TO SIZE-X
           END-SUBTRACT
           DISPLAY "076 [" R2-X SIZE-X "]"
           MOVE 99990.25 TO R3
           SUBTRACT A5 FROM R3
           DISPLAY "077 [" R3-X "]"
           MOVE 99990.25 TO R3
           SUBTRACT A5 FROM R3 ROUNDED
               ON SIZE ERROR MOVE "E" TO SIZE-X
               NOT ON SIZE ERROR MOVE "-" TO SIZE-X
           END-SUBTRACT
           DISPLAY "078 [" R3-X SIZE-X "]"
           MOVE 10 TO R4
           SUBTRACT A5 FROM R4
           DISPLAY "079 [" R4-X "]"
           MOVE 10 TO R4
           SUBTRACT A5 FROM R4 ROUNDED
               ON SIZE ERROR MOVE "E" TO SIZE-X
               NOT ON SIZE ERROR MOVE "-" TO SIZE-X
           END-SUBTRACT
           DISPLAY "080 [" R4-X SIZE-X "]"
           MOVE 50 TO R1
           ADD A1 1.05 GIVING R1
           DISPLAY "081 [" R1-X "]"
           MOVE 50 TO R1
           ADD A1 1.05 GIVING R1 ROUNDED
               ON SIZE ERROR MOVE "E" TO SIZE-X
               NOT ON SIZE ERROR MOVE "-" TO SIZE-X
           END-ADD
           DISPLAY "082 [" R1-X SIZE-X "]"
           MOVE -100.5 TO R2
           ADD A1 1.05 GIVING R2
           DISPLAY "083 [" R2-X "]"
           MOVE -100.5 TO R2
           ADD A1 1.05 GIVING R2 ROUNDED
               ON SIZE ERROR MOVE "E" TO SIZE-X
               NOT ON SIZE ERROR MOVE "-" TO SIZE-X
           END-ADD
           DISPLAY "084 [" R2-X SIZE-X "]"
           MOVE 99990.25 TO R3
           ADD A1 1.05 GIVING R3
           DISPLAY "085 [" R3-X "]"
           MOVE 99990.25 TO R3
           ADD A1 1.05 GIVING R3 ROUNDED
               ON SIZE ERROR MOVE "E" TO SIZE-X
               NOT ON SIZE ERROR MOVE "-" TO SIZE-X
           END-ADD
           DISPLAY "086 [" R3-X SIZE-X "]"
           MOVE 10 TO R4
           ADD A1 1.05 GIVING R4
           DISPLAY "087 [" R4-X "]"
           MOVE 10 TO R4
           ADD A1 1.05 GIVING R4 ROUNDED
               ON SIZE ERROR MOVE "E" TO SIZE-X
               NOT ON SIZE ERROR MOVE "-" TO SIZE-X
           END-ADD
           DISPLAY "088 [" R4-X SIZE-X "]"
           MOVE 50 TO R1
           ADD A2 1.05 GIVING R1
           DISPLAY "089 [" R1-X "]"
           MOVE 50 TO R1
           ADD A2 1.05 GIVING R1 ROUNDED
               ON SIZE ERROR MOVE "E" TO SIZE-X
               NOT ON SIZE ERROR MOVE "-" TO SIZE-X
           END-ADD
           DISPLAY "090 [" R1-X SIZE-X "]"
           MOVE -100.5 TO R2
           ADD A2 1.05 GIVING R2
           DISPLAY "091 [" R2-X "]"
           MOVE -100.5 TO R2
           ADD A2 1.05 GIVING R2 ROUNDED
               ON SIZE ERROR MOVE "E" TO SIZE-X
               NOT ON SIZE ERROR MOVE "-" TO SIZE-X
           END-ADD
           DISPLAY "092 [" R2-X SIZE-X "]"
           MOVE 99990.25 TO R3
           ADD A2 1.05 GIVING R3
           DISPLAY "093 [" R3-X "]"
           MOVE 99990.25 TO R3
           ADD A2 1.05 GIVING R3 ROUNDED
               ON SIZE ERROR MOVE "E" TO SIZE-X
               NOT ON SIZE ERROR MOVE "-" TO SIZE-X
           END-ADD
           DISPLAY "094 [" R3-X SIZE-X "]"
           MOVE 10 TO R4
           ADD A2 1.05 GIVING R4
           DISPLAY "095 [" R4-X "]"
           MOVE 10 TO R4
           ADD A2 1.05 GIVING R4 ROUNDED
               ON SIZE ERROR MOVE "E" TO SIZE-X
               NOT ON SIZE ERROR MOVE "-" TO SIZE-X
           END-ADD
           DISPLAY "096 [" R4-X SIZE-X "]"
           MOVE 50 TO R1
           ADD A3 1.05 GIVING R1
           DISPLAY "097 [" R1-X "]"
           MOVE 50 TO R1
           ADD A3 1.05 GIVING R1 ROUNDED
               ON SIZE ERROR MOVE "E" TO SIZE-X
               NOT ON SIZE ERROR MOVE "-" TO SIZE-X
           END-ADD
           DISPLAY "098 [" R1-X SIZE-X "]"
           MOVE -100.5 TO R2
           ADD A3 1.05 GIVING R2
           DISPLAY "099 [" R2-X "]"
           MOVE -100.5 TO R2
           ADD A3 1.05 GIVING R2 ROUNDED
               ON SIZE ERROR MOVE "E" TO SIZE-X
               NOT ON SIZE ERROR MOVE "-" TO SIZE-X
           END-ADD
           DISPLAY "100 [" R2-X SIZE-X "]"
           MOVE 99990.25 TO R3
           ADD A3 1.05 GIVING R3
           DISPLAY "101 [" R3-X "]"
           MOVE 99990.25 TO R3
           ADD A3 1.05 GIVING R3 ROUNDED
               ON SIZE ERROR MOVE "E" TO SIZE-X
               NOT ON SIZE ERROR MOVE "-" TO SIZE-X
           END-ADD
           DISPLAY "102 [" R3-X SIZE-X "]"
           MOVE 10 TO R4
           ADD A3 1.05 GIVING R4
           DISPLAY "103 [" R4-X "]"
           MOVE 10 TO R4
           ADD A3 1.05 GIVING R4 ROUNDED
               ON SIZE ERROR MOVE "E" TO SIZE-X
               NOT ON SIZE ERROR MOVE "-" TO SIZE-X
           END-ADD
           DISPLAY "104 [" R4-X SIZE-X "]"
           MOVE 50 TO R1
           ADD A4 1.05 GIVING R1
           DISPLAY "105 [" R1-X "]"
           MOVE 50 TO R1
           ADD A4 1.05 GIVING R1 ROUNDED
               ON SIZE ERROR MOVE "E" TO SIZE-X
               NOT ON SIZE ERROR MOVE "-" TO SIZE-X
           END-ADD
           DISPLAY "106 [" R1-X SIZE-X "]"
           MOVE -100.5 TO R2
           ADD A4 1.05 GIVING R2
           DISPLAY "107 [" R2-X "]"
           MOVE -100.5 TO R2
           ADD A4 1.05 GIVING R2 ROUNDED
               ON SIZE ERROR MOVE "E" TO SIZE-X
               NOT ON SIZE ERROR MOVE "-" TO SIZE-X
           END-ADD
           DISPLAY "108 [" R2-X SIZE-X "]"
           MOVE 99990.25 TO R3
           ADD A4 1.05 GIVING R3
           DISPLAY "109 [" R3-X "]"
           MOVE 99990.25 TO R3
           ADD A4 1.05 GIVING R3 ROUNDED
               ON SIZE ERROR MOVE "E" TO SIZE-X
               NOT ON SIZE ERROR MOVE "-" TO SIZE-X
           END-ADD
           DISPLAY "110 [" R3-X SIZE-X "]"
           MOVE 10 TO R4
           ADD A4 1.05 GIVING R4
           DISPLAY "111 [" R4-X "]"
           MOVE 10 TO R4
           ADD A4 1.05 GIVING R4 ROUNDED
               ON SIZE ERROR MOVE "E" TO SIZE-X
               NOT ON SIZE ERROR MOVE "-" TO SIZE-X
           END-ADD
           DISPLAY "112 [" R4-X SIZE-X "]"
           MOVE 50 TO R1
           ADD A5 1.05 GIVING R1
           DISPLAY "113 [" R1-X "]"
           MOVE 50 TO R1
           ADD A5 1.05 GIVING R1 ROUNDED
               ON SIZE ERROR MOVE "E" TO SIZE-X
               NOT ON SIZE ERROR MOVE "-" TO SIZE-X
           END-ADD
           DISPLAY "114 [" R1-X SIZE-X "]"
           MOVE -100.5 TO R2
           ADD A5 1.05 GIVING R2
           DISPLAY "115 [" R2-X "]"
           MOVE -100.5 TO R2
           ADD A5 1.05 GIVING R2 ROUNDED
               ON SIZE ERROR MOVE "E" TO SIZE-X
               NOT ON SIZE ERROR MOVE "-" TO SIZE-X
           END-ADD
           DISPLAY "116 [" R2-X SIZE-X "]"
           MOVE 99990.25 TO R3
           ADD A5 1.05 GIVING R3
           DISPLAY "117 [" R3-X "]"
           MOVE 99990.25 TO R3
           ADD A5 1.05 GIVING R3 ROUNDED
               ON SIZE ERROR MOVE "E" TO SIZE-X
               NOT ON SIZE ERROR MOVE "-" TO SIZE-X
           END-ADD
           DISPLAY "118 [" R3-X SIZE-X "]"
           MOVE 10 TO R4
           ADD A5 1.05 GIVING R4
           DISPLAY "119 [" R4-X "]"
           MOVE 10 TO R4
           ADD A5 1.05 GIVING R4 ROUNDED
               ON SIZE ERROR MOVE "E" TO SIZE-X
               NOT ON SIZE ERROR MOVE "-" TO SIZE-X
           END-ADD
           DISPLAY "120 [" R4-X SIZE-X "]"
           MOVE 50 TO R1
           SUBTRACT A1 FROM 9.5 GIVING R1
           DISPLAY "121 [" R1-X "]"
           MOVE 50 TO R1
           SUBTRACT A1 FROM 9.5 GIVING R1 ROUNDED
               ON SIZE ERROR MOVE "E" TO SIZE-X
               NOT ON SIZE ERROR MOVE "-" TO SIZE-X
           END-SUBTRACT
           DISPLAY "122 [" R1-X SIZE-X "]"
           MOVE -100.5 TO R2
           SUBTRACT A1 FROM 9.5 GIVING R2
           DISPLAY "123 [" R2-X "]"
           MOVE -100.5 TO R2
           SUBTRACT A1 FROM 9.5 GIVING R2 ROUNDED
               ON SIZE ERROR MOVE "E" TO SIZE-X
               NOT ON SIZE ERROR MOVE "-" TO SIZE-X
           END-SUBTRACT
           DISPLAY "124 [" R2-X SIZE-X "]"
           MOVE 99990.25 TO R3
           SUBTRACT A1 FROM 9.5 GIVING R3
           DISPLAY "125 [" R3-X "]"
           MOVE 99990.25 TO R3
           SUBTRACT A1 FROM 9.5 GIVING R3 ROUNDED
               ON SIZE ERROR MOVE "E" TO SIZE-X
               NOT ON SIZE ERROR MOVE "-" TO SIZE-X
           END-SUBTRACT
           DISPLAY "126 [" R3-X SIZE-X "]"
           MOVE 10 TO R4
           SUBTRACT A1 FROM 9.5 GIVING R4
           DISPLAY "127 [" R4-X "]"
           MOVE 10 TO R4
           SUBTRACT A1 FROM 9.5 GIVING R4 ROUNDED
               ON SIZE ERROR MOVE "E" TO SIZE-X
               NOT ON SIZE ERROR MOVE "-" TO SIZE-X
           END-SUBTRACT
           DISPLAY "128 [" R4-X SIZE-X "]"
           MOVE 50 TO R1
           SUBTRACT A2 FROM 9.5 GIVING R1
           DISPLAY "129 [" R1-X "]"
           MOVE 50 TO R1
           SUBTRACT A2 FROM 9.5 GIVING R1 ROUNDED
               ON SIZE ERROR MOVE "E" TO SIZE-X
               NOT ON SIZE ERROR MOVE "-" TO SIZE-X
           END-SUBTRACT
           DISPLAY "130 [" R1-X SIZE-X "]"
           MOVE -100.5 TO R2
           SUBTRACT A2 FROM 9.5 GIVING R2
           DISPLAY "131 [" R2-X "]"
           MOVE -100.5 TO R2
           SUBTRACT A2 FROM 9.5 GIVING R2 ROUNDED
               ON SIZE ERROR MOVE "E" TO SIZE-X
               NOT ON SIZE ERROR MOVE "-" TO SIZE-X
           END-SUBTRACT
           DISPLAY "132 [" R2-X SIZE-X "]"
           MOVE 99990.25 TO R3
           SUBTRACT A2 FROM 9.5 GIVING R3
           DISPLAY "133 [" R3-X "]"
           MOVE 99990.25 TO R3
           SUBTRACT A2 FROM 9.5 GIVING R3 ROUNDED
               ON SIZE ERROR MOVE "E" TO SIZE-X
               NOT ON SIZE ERROR MOVE "-" TO SIZE-X
           END-SUBTRACT
           DISPLAY "134 [" R3-X SIZE-X "]"
           MOVE 10 TO R4
           SUBTRACT A2 FROM 9.5 GIVING R4
           DISPLAY "135 [" R4-X "]"
           MOVE 10 TO R4
           SUBTRACT A2 FROM 9.5 GIVING R4 ROUNDED
               ON SIZE ERROR MOVE "E" TO SIZE-X
               NOT ON SIZE ERROR MOVE "-" TO SIZE-X
           END-SUBTRACT
           DISPLAY "136 [" R4-X SIZE-X "]"
           MOVE 50 TO R1
           SUBTRACT A3 FROM 9.5 GIVING R1
           DISPLAY "137 [" R1-X "]"
           MOVE 50 TO R1
           SUBTRACT A3 FROM 9.5 GIVING R1 ROUNDED
               ON SIZE ERROR MOVE "E" TO SIZE-X
               NOT ON SIZE ERROR MOVE "-" TO SIZE-X
           END-SUBTRACT
           DISPLAY "138 [" R1-X SIZE-X "]"
           MOVE -100.5 TO R2
           SUBTRACT A3 FROM 9.5 GIVING R2
           DISPLAY "139 [" R2-X "]"
           MOVE -100.5 TO R2
           SUBTRACT A3 FROM 9.5 GIVING R2 ROUNDED
               ON SIZE ERROR MOVE "E" TO SIZE-X
               NOT ON SIZE ERROR MOVE "-" TO SIZE-X
           END-SUBTRACT
           DISPLAY "140 [" R2-X SIZE-X "]"
           MOVE 99990.25 TO R3
           SUBTRACT A3 FROM 9.5 GIVING R3
           DISPLAY "141 [" R3-X "]"
           MOVE 99990.25 TO R3
           SUBTRACT A3 FROM 9.5 GIVING R3 ROUNDED
               ON SIZE ERROR MOVE "E" TO SIZE-X
               NOT ON SIZE ERROR MOVE "-" TO SIZE-X
           END-SUBTRACT
           DISPLAY "142 [" R3-X SIZE-X "]"
           MOVE 10 TO R4
           SUBTRACT A3 FROM 9.5 GIVING R4
           DISPLAY "143 [" R4-X "]"
           MOVE 10 TO R4
           SUBTRACT A3 FROM 9.5 GIVING R4 ROUNDED
               ON SIZE ERROR MOVE "E" TO SIZE-X
               NOT ON SIZE ERROR MOVE "-" TO SIZE-X
           END-SUBTRACT
           DISPLAY "144 [" R4-X SIZE-X "]"
           MOVE 50 TO R1
           SUBTRACT A4 FROM 9.5 GIVING R1
           DISPLAY "145 [" R1-X "]"
           MOVE 50 TO R1
           SUBTRACT A4 FROM 9.5 GIVING R1 ROUNDED
               ON SIZE ERROR MOVE "E" TO SIZE-X
               NOT ON SIZE ERROR MOVE "-" TO SIZE-X
           END-SUBTRACT
           DISPLAY "146 [" R1-X SIZE-X "]"
           MOVE -100.5 TO R2
           SUBTRACT A4 FROM 9.5 GIVING R2
           DISPLAY "147 [" R2-X "]"
           MOVE -100.5 TO R2
           SUBTRACT A4 FROM 9.5 GIVING R2 ROUNDED
               ON SIZE ERROR MOVE "E" TO SIZE-X
               NOT ON SIZE ERROR MOVE "-" TO SIZE-X
           END-SUBTRACT
           DISPLAY "148 [" R2-X SIZE-X "]"
           MOVE 99990.25 TO R3
           SUBTRACT A4 FROM 9.5 GIVING R3
           DISPLAY "149 [" R3-X "]"
           MOVE 99990.25 TO R3
           SUBTRACT A4 FROM 9.5 GIVING R3 ROUNDED
               ON SIZE ERROR MOVE "E" TO SIZE-X
               NOT ON SIZE ERROR MOVE "-" TO SIZE-X
           END-SUBTRACT
           DISPLAY "150 [" R3-X SIZE-X "]"
           MOVE 10 TO R4
           SUBTRACT A4 FROM 9.5 GIVING R4
           DISPLAY "151 [" R4-X "]"
           MOVE 10 TO R4
           SUBTRACT A4 FROM 9.5 GIVING R4 ROUNDED
               ON SIZE ERROR MOVE "E" TO SIZE-X
               NOT ON SIZE ERROR MOVE "-" TO SIZE-X
           END-SUBTRACT
           DISPLAY "152 [" R4-X SIZE-X "]"
           MOVE 50 TO R1
           SUBTRACT A5 FROM 9.5 GIVING R1
           DISPLAY "153 [" R1-X "]"
           MOVE 50 TO R1
           SUBTRACT A5 FROM 9.5 GIVING R1 ROUNDED
               ON SIZE ERROR MOVE "E" TO SIZE-X
               NOT ON SIZE ERROR MOVE "-" TO SIZE-X
           END-SUBTRACT
           DISPLAY "154 [" R1-X SIZE-X "]"
           MOVE -100.5 TO R2
           SUBTRACT A5 FROM 9.5 GIVING R2
           DISPLAY "155 [" R2-X "]"
           MOVE -100.5 TO R2
           SUBTRACT A5 FROM 9.5 GIVING R2 ROUNDED
               ON SIZE ERROR MOVE "E" TO SIZE-X
               NOT ON SIZE ERROR MOVE "-" TO SIZE-X
           END-SUBTRACT
           DISPLAY "156 [" R2-X SIZE-X "]"
           MOVE 99990.25 TO R3
           SUBTRACT A5 FROM 9.5 GIVING R3
           DISPLAY "157 [" R3-X "]"
           MOVE 99990.25 TO R3
           SUBTRACT A5 FROM 9.5 GIVING R3 ROUNDED
               ON SIZE ERROR MOVE "E" TO SIZE-X
               NOT ON SIZE ERROR MOVE "-" TO SIZE-X
           END-SUBTRACT
           DISPLAY "158 [" R3-X SIZE-X "]"
           MOVE 10 TO R4
           SUBTRACT A5 FROM 9.5 GIVING R4
           DISPLAY "159 [" R4-X "]"
           MOVE 10 TO R4
           SUBTRACT A5 FROM 9.5 GIVING R4 ROUNDED
               ON SIZE ERROR MOVE "E" TO SIZE-X
               NOT ON SIZE ERROR MOVE "-" TO SIZE-X
           END-SUBTRACT
           DISPLAY "160 [" R4-X SIZE-X "]"
           STOP RUN.
