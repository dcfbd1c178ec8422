       IDENTIFICATION DIVISION.
       PROGRAM-ID. MULTIPLY-DIVIDE.
       DATA DIVISION.
       WORKING-STORAGE SECTION.
       01 A1 PIC 9 VALUE 7.
       01 A1-X REDEFINES A1 PIC X(1).
       01 A2 PIC 9(4) VALUE 9876.
       01 A2-X REDEFINES A2 PIC X(4).
       01 A3 PIC 9(2)V99 VALUE 12.35.
       01 A3-X REDEFINES A3 PIC X(4).
       01 A4 PIC S9(3) VALUE -250.
       01 A4-X REDEFINES A4 PIC X(3).
       01 A5 PIC S9V9(4) VALUE -1.2345.
       01 A5-X REDEFINES A5 PIC X(5).
       01 R1 PIC 9(2) VALUE 50.
       01 R1-X REDEFINES R1 PIC X(2).
       01 R2 PIC S9(3)V9 VALUE -100.5.
       01 R2-X REDEFINES R2 PIC X(4).
       01 R3 PIC 9(5)V99 VALUE 99990.25.
       01 R3-X REDEFINES R3 PIC X(7).
       01 R4 PIC S9(2) SIGN LEADING SEPARATE VALUE 10.
       01 R4-X REDEFINES R4 PIC X(3).
       01 SIZE-X PIC X.
       PROCEDURE DIVISION.
       CASES.
           MOVE 50 TO R1
           MULTIPLY A1 BY R1
           DISPLAY "001 [" R1-X "]"
           MOVE 50 TO R1
           MULTIPLY A1 BY R1 ROUNDED
               ON SIZE ERROR MOVE "E" TO SIZE-X
               NOT ON SIZE ERROR MOVE "-" TO SIZE-X
           END-MULTIPLY
           DISPLAY "002 [" R1-X SIZE-X "]"
           MOVE -100.5 TO R2
           MULTIPLY A1 BY R2
           DISPLAY "003 [" R2-X "]"
           MOVE -100.5 TO R2
           MULTIPLY A1 BY R2 ROUNDED
               ON SIZE ERROR MOVE "E" TO SIZE-X
               NOT ON SIZE ERROR MOVE "-" TO SIZE-X
           END-MULTIPLY
           DISPLAY "004 [" R2-X SIZE-X "]"
           MOVE 99990.25 TO R3
           MULTIPLY A1 BY R3
           DISPLAY "005 [" R3-X "]"
           MOVE 99990.25 TO R3
           MULTIPLY A1 BY R3 ROUNDED
               ON SIZE ERROR MOVE "E" TO SIZE-X
               NOT ON SIZE ERROR MOVE "-" TO SIZE-X
           END-MULTIPLY
           DISPLAY "006 [" R3-X SIZE-X "]"
           MOVE 10 TO R4
           MULTIPLY A1 BY R4
           DISPLAY "007 [" R4-X "]"
           MOVE 10 TO R4
           MULTIPLY A1 BY R4 ROUNDED
               ON SIZE ERROR MOVE "E" TO SIZE-X
               NOT ON SIZE ERROR MOVE "-" TO SIZE-X
           END-MULTIPLY
           DISPLAY "008 [" R4-X SIZE-X "]"
           MOVE 50 TO R1
           MULTIPLY A2 BY R1
           DISPLAY "009 [" R1-X "]"
           MOVE 50 TO R1
           MULTIPLY A2 BY R1 ROUNDED
               ON SIZE ERROR MOVE "E" TO SIZE-X
               NOT ON SIZE ERROR MOVE "-" TO SIZE-X
           END-MULTIPLY
           DISPLAY "010 [" R1-X SIZE-X "]"
           MOVE -100.5 TO R2
           MULTIPLY A2 BY R2
           DISPLAY "011 [" R2-X "]"
           MOVE -100.5 TO R2
           MULTIPLY A2 BY R2 ROUNDED
               ON SIZE ERROR MOVE "E" TO SIZE-X
               NOT ON SIZE ERROR MOVE "-" TO SIZE-X
           END-MULTIPLY
           DISPLAY "012 [" R2-X SIZE-X "]"
           MOVE 99990.25 TO R3
           MULTIPLY A2 BY R3
           DISPLAY "013 [" R3-X "]"
           MOVE 99990.25 TO R3
           MULTIPLY A2 BY R3 ROUNDED
               ON SIZE ERROR MOVE "E" TO SIZE-X
               NOT ON SIZE ERROR MOVE "-" TO SIZE-X
           END-MULTIPLY
           DISPLAY "014 [" R3-X SIZE-X "]"
           MOVE 10 TO R4
           MULTIPLY A2 BY R4
           DISPLAY "015 [" R4-X "]"
           MOVE 10 TO R4
           MULTIPLY A2 BY R4 ROUNDED
               ON SIZE ERROR MOVE "E" TO SIZE-X
               NOT ON SIZE ERROR MOVE "-" TO SIZE-X
           END-MULTIPLY
           DISPLAY "016 [" R4-X SIZE-X "]"
           MOVE 50 TO R1
           MULTIPLY A3 BY R1
           DISPLAY "017 [" R1-X "]"
           MOVE 50 TO R1
           MULTIPLY A3 BY R1 ROUNDED
               ON SIZE ERROR MOVE "E" TO SIZE-X
               NOT ON SIZE ERROR MOVE "-" TO SIZE-X
           END-MULTIPLY
           DISPLAY "018 [" R1-X SIZE-X "]"
           MOVE -100.5 TO R2
           MULTIPLY A3 BY R2
           DISPLAY "019 [" R2-X "]"
           MOVE -100.5 TO R2
           MULTIPLY A3 BY R2 ROUNDED
               ON SIZE ERROR MOVE "E" TO SIZE-X
               NOT ON SIZE ERROR MOVE "-" TO SIZE-X
           END-MULTIPLY
           DISPLAY "020 [" R2-X SIZE-X "]"
           MOVE 99990.25 TO R3
           MULTIPLY A3 BY R3
           DISPLAY "021 [" R3-X "]"
           MOVE 99990.25 TO R3
           MULTIPLY A3 BY R3 ROUNDED
               ON SIZE ERROR MOVE "E" TO SIZE-X
               NOT ON SIZE ERROR MOVE "-" TO SIZE-X
           END-MULTIPLY
           DISPLAY "022 [" R3-X SIZE-X "]"
           MOVE 10 TO R4
           MULTIPLY A3 BY R4
           DISPLAY "023 [" R4-X "]"
           MOVE 10 TO R4
           MULTIPLY A3 BY R4 ROUNDED
               ON SIZE ERROR MOVE "E" TO SIZE-X
               NOT ON SIZE ERROR MOVE "-" TO SIZE-X
           END-MULTIPLY
           DISPLAY "024 [" R4-X SIZE-X "]"
           MOVE 50 TO R1
           MULTIPLY A4 BY R1
           DISPLAY "025 [" R1-X "]"
           MOVE 50 TO R1
           MULTIPLY A4 BY R1 ROUNDED
               ON SIZE ERROR MOVE "E" TO SIZE-X
               NOT ON SIZE ERROR MOVE "-" TO SIZE-X
           END-MULTIPLY
           DISPLAY "026 [" R1-X SIZE-X "]"
           MOVE -100.5 TO R2
           MULTIPLY A4 BY R2
           DISPLAY "027 [" R2-X "]"
           MOVE -100.5 TO R2
           MULTIPLY A4 BY R2 ROUNDED
               ON SIZE ERROR MOVE "E" TO SIZE-X
               NOT ON SIZE ERROR MOVE "-" TO SIZE-X
           END-MULTIPLY
           DISPLAY "028 [" R2-X SIZE-X "]"
           MOVE 99990.25 TO R3
           MULTIPLY A4 BY R3
           DISPLAY "029 [" R3-X "]"
           MOVE 99990.25 TO R3
           MULTIPLY A4 BY R3 ROUNDED
               ON SIZE ERROR MOVE "E" TO SIZE-X
               NOT ON SIZE ERROR MOVE "-" TO SIZE-X
           END-MULTIPLY
           DISPLAY "030 [" R3-X SIZE-X "]"
           MOVE 50 TO R1
           MULTIPLY A5 BY R1
           DISPLAY "031 [" R1-X "]"
           MOVE 50 TO R1
           MULTIPLY A5 BY R1 ROUNDED
               ON SIZE ERROR MOVE "E" TO SIZE-X
               NOT ON SIZE ERROR MOVE "-" TO SIZE-X
           END-MULTIPLY
           DISPLAY "032 [" R1-X SIZE-X "]"
           MOVE -100.5 TO R2
           MULTIPLY A5 BY R2
           DISPLAY "033 [" R2-X "]"
           MOVE -100.5 TO R2
           MULTIPLY A5 BY R2 ROUNDED
               ON SIZE ERROR MOVE "E" TO SIZE-X
               NOT ON SIZE ERROR MOVE "-" TO SIZE-X
           END-MULTIPLY
           DISPLAY "034 [" R2-X SIZE-X "]"
           MOVE 99990.25 TO R3
           MULTIPLY A5 BY R3
           DISPLAY "035 [" R3-X "]"
           MOVE 99990.25 TO R3
           MULTIPLY A5 BY R3 ROUNDED
               ON SIZE ERROR MOVE "E" TO SIZE-X
               NOT ON SIZE ERROR MOVE "-" TO SIZE-X
           END-MULTIPLY
           DISPLAY "036 [" R3-X SIZE-X "]"
           MOVE 10 TO R4
           MULTIPLY A5 BY R4
           DISPLAY "037 [" R4-X "]"
           MOVE 10 TO R4
           MULTIPLY A5 BY R4 ROUNDED
               ON SIZE ERROR MOVE "E" TO SIZE-X
               NOT ON SIZE ERROR MOVE "-" TO SIZE-X
           END-MULTIPLY
           DISPLAY "038 [" R4-X SIZE-X "]"
           MOVE 50 TO R1
           DIVIDE A1 INTO R1
           DISPLAY "039 [" R1-X "]"
           MOVE 50 TO R1
           DIVIDE A1 INTO R1 ROUNDED
               ON SIZE ERROR MOVE "E" TO SIZE-X
               NOT ON SIZE ERROR MOVE "-" TO SIZE-X
           END-DIVIDE
           DISPLAY "040 [" R1-X SIZE-X "]"
           MOVE -100.5 TO R2
           DIVIDE A1 INTO R2
           DISPLAY "041 [" R2-X "]"
           MOVE -100.5 TO R2
           DIVIDE A1 INTO R2 ROUNDED
               ON SIZE ERROR MOVE "E" TO SIZE-X
               NOT ON SIZE ERROR MOVE "-" TO SIZE-X
           END-DIVIDE
           DISPLAY "042 [" R2-X SIZE-X "]"
           MOVE 99990.25 TO R3
           DIVIDE A1 INTO R3
           DISPLAY "043 [" R3-X "]"
           MOVE 99990.25 TO R3
           DIVIDE A1 INTO R3 ROUNDED
               ON SIZE ERROR MOVE "E" TO SIZE-X
               NOT ON SIZE ERROR MOVE "-" TO SIZE-X
           END-DIVIDE
           DISPLAY "044 [" R3-X SIZE-X "]"
           MOVE 10 TO R4
           DIVIDE A1 INTO R4
           DISPLAY "045 [" R4-X "]"
           MOVE 10 TO R4
           DIVIDE A1 INTO R4 ROUNDED
               ON SIZE ERROR MOVE "E" TO SIZE-X
               NOT ON SIZE ERROR MOVE "-" TO SIZE-X
           END-DIVIDE
           DISPLAY "046 [" R4-X SIZE-X "]"
           MOVE 50 TO R1
           DIVIDE A2 INTO R1
           DISPLAY "047 [" R1-X "]"
           MOVE 50 TO R1
           DIVIDE A2 INTO R1 ROUNDED
               ON SIZE ERROR MOVE "E" TO SIZE-X
               NOT ON SIZE ERROR MOVE "-" TO SIZE-X
           END-DIVIDE
           DISPLAY "048 [" R1-X SIZE-X "]"
           MOVE -100.5 TO R2
           DIVIDE A2 INTO R2
           DISPLAY "049 [" R2-X "]"
           MOVE -100.5 TO R2
           DIVIDE A2 INTO R2 ROUNDED
               ON SIZE ERROR MOVE "E" TO SIZE-X
               NOT ON SIZE ERROR MOVE "-" TO SIZE-X
           END-DIVIDE
           DISPLAY "050 [" R2-X SIZE-X "]"
           MOVE 99990.25 TO R3
           DIVIDE A2 INTO R3
           DISPLAY "051 [" R3-X "]"
           MOVE 99990.25 TO R3
           DIVIDE A2 INTO R3 ROUNDED
               ON SIZE ERROR MOVE "E" TO SIZE-X
               NOT ON SIZE ERROR MOVE "-" TO SIZE-X
           END-DIVIDE
           DISPLAY "052 [" R3-X SIZE-X "]"
           MOVE 10 TO R4
           DIVIDE A2 INTO R4
           DISPLAY "053 [" R4-X "]"
           MOVE 10 TO R4
           DIVIDE A2 INTO R4 ROUNDED
               ON SIZE ERROR MOVE "E" TO SIZE-X
               NOT ON SIZE ERROR MOVE "-" TO SIZE-X
           END-DIVIDE
           DISPLAY "054 [" R4-X SIZE-X "]"
           MOVE 50 TO R1
           DIVIDE A3 INTO R1
           DISPLAY "055 [" R1-X "]"
           MOVE 50 TO R1
           DIVIDE A3 INTO R1 ROUNDED
               ON SIZE ERROR MOVE "E" TO SIZE-X
               NOT ON SIZE ERROR MOVE "-" TO SIZE-X
           END-DIVIDE
           DISPLAY "056 [" R1-X SIZE-X "]"
           MOVE -100.5 TO R2
           DIVIDE A3 INTO R2
           DISPLAY "057 [" R2-X "]"
           MOVE -100.5 TO R2
           DIVIDE A3 INTO R2 ROUNDED
               ON SIZE ERROR MOVE "E" TO SIZE-X
               NOT ON SIZE ERROR MOVE "-" TO SIZE-X
           END-DIVIDE
           DISPLAY "058 [" R2-X SIZE-X "]"
           MOVE 99990.25 TO R3
           DIVIDE A3 INTO R3
           DISPLAY "059 [" R3-X "]"
           MOVE 99990.25 TO R3
           DIVIDE A3 INTO R3 ROUNDED
               ON SIZE ERROR MOVE "E" TO SIZE-X
               NOT ON SIZE ERROR MOVE "-" TO SIZE-X
           END-DIVIDE
           DISPLAY "060 [" R3-X SIZE-X "]"
           MOVE 10 TO R4
           DIVIDE A3 INTO R4
           DISPLAY "061 [" R4-X "]"
           MOVE 10 TO R4
           DIVIDE A3 INTO R4 ROUNDED
               ON SIZE ERROR MOVE "E" TO SIZE-X
               NOT ON SIZE ERROR MOVE "-" TO SIZE-X
           END-DIVIDE
           DISPLAY "062 [" R4-X SIZE-X "]"
           MOVE 50 TO R1
           DIVIDE A4 INTO R1
           DISPLAY "063 [" R1-X "]"
           MOVE 50 TO R1
           DIVIDE A4 INTO R1 ROUNDED
               ON SIZE ERROR MOVE "E" TO SIZE-X
               NOT ON SIZE ERROR MOVE "-" TO SIZE-X
           END-DIVIDE
           DISPLAY "064 [" R1-X SIZE-X "]"
           MOVE -100.5 TO R2
           DIVIDE A4 INTO R2
           DISPLAY "065 [" R2-X "]"
           MOVE -100.5 TO R2
           DIVIDE A4 INTO R2 ROUNDED
               ON SIZE ERROR MOVE "E" TO SIZE-X
               NOT ON SIZE ERROR MOVE "-" TO SIZE-X
           END-DIVIDE
           DISPLAY "066 [" R2-X SIZE-X "]"
           MOVE 99990.25 TO R3
           DIVIDE A4 INTO R3
           DISPLAY "067 [" R3-X "]"
           MOVE 99990.25 TO R3
           DIVIDE A4 INTO R3 ROUNDED
               ON SIZE ERROR MOVE "E" TO SIZE-X
               NOT ON SIZE ERROR MOVE "-" TO SIZE-X
           END-DIVIDE
           DISPLAY "068 [" R3-X SIZE-X "]"
           MOVE 10 TO R4
           DIVIDE A4 INTO R4
           DISPLAY "069 [" R4-X "]"
           MOVE 10 TO R4
           DIVIDE A4 INTO R4 ROUNDED
               ON SIZE ERROR MOVE "E" TO SIZE-X
               NOT ON SIZE ERROR MOVE "-" TO SIZE-X
           END-DIVIDE
           DISPLAY "070 [" R4-X SIZE-X "]"
           MOVE 50 TO R1
           DIVIDE A5 INTO R1
           DISPLAY "071 [" R1-X "]"
           MOVE 50 TO R1
           DIVIDE A5 INTO R1 ROUNDED
               ON SIZE ERROR MOVE "E" TO SIZE-X
               NOT ON SIZE ERROR MOVE "-" TO SIZE-X
           END-DIVIDE
           DISPLAY "072 [" R1-X SIZE-X "]"
           MOVE -100.5 TO R2
           DIVIDE A5 INTO R2
           DISPLAY "073 [" R2-X "]"
           MOVE -100.5 TO R2
           DIVIDE A5 INTO R2 ROUNDED
               ON SIZE ERROR MOVE "E" TO SIZE-X
               NOT ON SIZE ERROR MOVE "-" TO SIZE-X
           END-DIVIDE
           DISPLAY "074 [" R2-X SIZE-X "]"
           MOVE 99990.25 TO R3
           DIVIDE A5 INTO R3
           DISPLAY "075 [" R3-X "]"
           MOVE 99990.25 TO R3
           DIVIDE A5 INTO R3 ROUNDED
               ON SIZE ERROR MOVE "E" TO SIZE-X
               NOT ON SIZE ERROR MOVE "-" TO SIZE-X
           END-DIVIDE
           DISPLAY "076 [" R3-X SIZE-X "]"
           MOVE 10 TO R4
           DIVIDE A5 INTO R4
           DISPLAY "077 [" R4-X "]"
           MOVE 10 TO R4
           DIVIDE A5 INTO R4 ROUNDED
               ON SIZE ERROR MOVE "E" TO SIZE-X
               NOT ON SIZE ERROR MOVE "-" TO SIZE-X
           END-DIVIDE
           DISPLAY "078 [" R4-X SIZE-X "]"
           MOVE 50 TO R1
           MULTIPLY A1 BY 3.14 GIVING R1
           DISPLAY "079 [" R1-X "]"
           MOVE 50 TO R1
           MULTIPLY A1 BY 3.14 GIVING R1 ROUNDED
               ON SIZE ERROR MOVE "E" TO SIZE-X
               NOT ON SIZE ERROR MOVE "-" TO SIZE-X
           END-MULTIPLY
           DISPLAY "080 [" R1-X SIZE-X "]"
           MOVE -100.5 TO R2
           MULTIPLY A1 BY 3.14 GIVING R2
           DISPLAY "081 [" R2-X "]"
           MOVE -100.5 TO R2
           MULTIPLY A1 BY 3.14 GIVING R2 ROUNDED
               ON SIZE ERROR MOVE "E" TO SIZE-X
               NOT ON SIZE ERROR MOVE "-" TO SIZE-X
           END-MULTIPLY
           DISPLAY "082 [" R2-X SIZE-X "]"
           MOVE 99990.25 TO R3
           MULTIPLY A1 BY 3.14 GIVING R3
           DISPLAY "083 [" R3-X "]"
           MOVE 99990.25 TO R3
           MULTIPLY A1 BY 3.14 GIVING R3 ROUNDED
               ON SIZE ERROR MOVE "E" TO SIZE-X
               NOT ON SIZE ERROR MOVE "-" TO SIZE-X
           END-MULTIPLY
           DISPLAY "084 [" R3-X SIZE-X "]"
           MOVE 10 TO R4
           MULTIPLY A1 BY 3.14 GIVING R4
           DISPLAY "085 [" R4-X "]"
           MOVE 10 TO R4
           MULTIPLY A1 BY 3.14 GIVING R4 ROUNDED
               ON SIZE ERROR MOVE "E" TO SIZE-X
               NOT ON SIZE ERROR MOVE "-" TO SIZE-X
           END-MULTIPLY
           DISPLAY "086 [" R4-X SIZE-X "]"
           MOVE 50 TO R1
           MULTIPLY A2 BY 3.14 GIVING R1
           DISPLAY "087 [" R1-X "]"
           MOVE 50 TO R1
           MULTIPLY A2 BY 3.14 GIVING R1 ROUNDED
               ON SIZE ERROR MOVE "E" TO SIZE-X
               NOT ON SIZE ERROR MOVE "-" TO SIZE-X
           END-MULTIPLY
           DISPLAY "088 [" R1-X SIZE-X "]"
           MOVE -100.5 TO R2
           MULTIPLY A2 BY 3.14 GIVING R2
           DISPLAY "089 [" R2-X "]"
           MOVE -100.5 TO R2
           MULTIPLY A2 BY 3.14 GIVING R2 ROUNDED
               ON SIZE ERROR MOVE "E" TO SIZE-X
               NOT ON SIZE ERROR MOVE "-" TO SIZE-X
           END-MULTIPLY
           DISPLAY "090 [" R2-X SIZE-X "]"
           MOVE 99990.25 TO R3
           MULTIPLY A2 BY 3.14 GIVING R3
           DISPLAY "091 [" R3-X "]"
           MOVE 99990.25 TO R3
           MULTIPLY A2 BY 3.14 GIVING R3 ROUNDED
               ON SIZE ERROR MOVE "E" TO SIZE-X
               NOT ON SIZE ERROR MOVE "-" TO SIZE-X
           END-MULTIPLY
           DISPLAY "092 [" R3-X SIZE-X "]"
           MOVE 10 TO R4
           MULTIPLY A2 BY 3.14 GIVING R4
           DISPLAY "093 [" R4-X "]"
           MOVE 10 TO R4
           MULTIPLY A2 BY 3.14 GIVING R4 ROUNDED
               ON SIZE ERROR MOVE "E" TO SIZE-X
               NOT ON SIZE ERROR MOVE "-" TO SIZE-X
           END-MULTIPLY
           DISPLAY "094 [" R4-X SIZE-X "]"
           MOVE 50 TO R1
           MULTIPLY A3 BY 3.14 GIVING R1
           DISPLAY "095 [" R1-X "]"
           MOVE 50 TO R1
           MULTIPLY A3 BY 3.14 GIVING R1 ROUNDED
               ON SIZE ERROR MOVE "E" TO SIZE-X
               NOT ON SIZE ERROR MOVE "-" TO SIZE-X
           END-MULTIPLY
           DISPLAY "096 [" R1-X SIZE-X "]"
           MOVE -100.5 TO R2
           MULTIPLY A3 BY 3.14 GIVING R2
           DISPLAY "097 [" R2-X "]"
           MOVE -100.5 TO R2
           MULTIPLY A3 BY 3.14 GIVING R2 ROUNDED
               ON SIZE ERROR MOVE "E" TO SIZE-X
               NOT ON SIZE ERROR MOVE "-" TO SIZE-X
           END-MULTIPLY
           DISPLAY "098 [" R2-X SIZE-X "]"
           MOVE 99990.25 TO R3
           MULTIPLY A3 BY 3.14 GIVING R3
           DISPLAY "099 [" R3-X "]"
           MOVE 99990.25 TO R3
           MULTIPLY A3 BY 3.14 GIVING R3 ROUNDED
               ON SIZE ERROR MOVE "E" TO SIZE-X
               NOT ON SIZE ERROR MOVE "-" TO SIZE-X
           END-MULTIPLY
           DISPLAY "100 [" R3-X SIZE-X "]"
           MOVE 10 TO R4
           MULTIPLY A3 BY 3.14 GIVING R4
           DISPLAY "101 [" R4-X "]"
           MOVE 10 TO R4
           MULTIPLY A3 BY 3.14 GIVING R4 ROUNDED
               ON SIZE ERROR MOVE "E" TO SIZE-X
               NOT ON SIZE ERROR MOVE "-" TO SIZE-X
           END-MULTIPLY
           DISPLAY "102 [" R4-X SIZE-X "]"
           MOVE 50 TO R1
           MULTIPLY A4 BY 3.14 GIVING R1
           DISPLAY "103 [" R1-X "]"
           MOVE 50 TO R1
           MULTIPLY A4 BY 3.14 GIVING R1 ROUNDED
               ON SIZE ERROR MOVE "E" TO SIZE-X
               NOT ON SIZE ERROR MOVE "-" TO SIZE-X
           END-MULTIPLY
           DISPLAY "104 [" R1-X SIZE-X "]"
           MOVE -100.5 TO R2
           MULTIPLY A4 BY 3.14 GIVING R2
           DISPLAY "105 [" R2-X "]"
           MOVE -100.5 TO R2
           MULTIPLY A4 BY 3.14 GIVING R2 ROUNDED
               ON SIZE ERROR MOVE "E" TO SIZE-X
               NOT ON SIZE ERROR MOVE "-" TO SIZE-X
           END-MULTIPLY
           DISPLAY "106 [" R2-X SIZE-X "]"
           MOVE 99990.25 TO R3
           MULTIPLY A4 BY 3.14 GIVING R3
           DISPLAY "107 [" R3-X "]"
           MOVE 99990.25 TO R3
           MULTIPLY A4 BY 3.14 GIVING R3 ROUNDED
               ON SIZE ERROR MOVE "E" TO SIZE-X
               NOT ON SIZE ERROR MOVE "-" TO SIZE-X
           END-MULTIPLY
           DISPLAY "108 [" R3-X SIZE-X "]"
           MOVE 10 TO R4
           MULTIPLY A4 BY 3.14 GIVING R4
           DISPLAY "109 [" R4-X "]"
           MOVE 10 TO R4
           MULTIPLY A4 BY 3.14 GIVING R4 ROUNDED
               ON SIZE ERROR MOVE "E" TO SIZE-X
               NOT ON SIZE ERROR MOVE "-" TO SIZE-X
           END-MULTIPLY
           DISPLAY "110 [" R4-X SIZE-X "]"
           MOVE 50 TO R1
           MULTIPLY A5 BY 3.14 GIVING R1
           DISPLAY "111 [" R1-X "]"
           MOVE 50 TO R1
           MULTIPLY A5 BY 3.14 GIVING R1 ROUNDED
               ON SIZE ERROR MOVE "E" TO SIZE-X
               NOT ON SIZE ERROR MOVE "-" TO SIZE-X
           END-MULTIPLY
           DISPLAY "112 [" R1-X SIZE-X "]"
           MOVE -100.5 TO R2
           MULTIPLY A5 BY 3.14 GIVING R2
           DISPLAY "113 [" R2-X "]"
           MOVE -100.5 TO R2
           MULTIPLY A5 BY 3.14 GIVING R2 ROUNDED
               ON SIZE ERROR MOVE "E" TO SIZE-X
               NOT ON SIZE ERROR MOVE "-" TO SIZE-X
           END-MULTIPLY
           DISPLAY "114 [" R2-X SIZE-X "]"
           MOVE 99990.25 TO R3
           MULTIPLY A5 BY 3.14 GIVING R3
           DISPLAY "115 [" R3-X "]"
           MOVE 99990.25 TO R3
           MULTIPLY A5 BY 3.14 GIVING R3 ROUNDED
               ON SIZE ERROR MOVE "E" TO SIZE-X
               NOT ON SIZE ERROR MOVE "-" TO SIZE-X
           END-MULTIPLY
           DISPLAY "116 [" R3-X SIZE-X "]"
           MOVE 10 TO R4
           MULTIPLY A5 BY 3.14 GIVING R4
           DISPLAY "117 [" R4-X "]"
           MOVE 10 TO R4
           MULTIPLY A5 BY 3.14 GIVING R4 ROUNDED
               ON SIZE ERROR MOVE "E" TO SIZE-X
               NOT ON SIZE ERROR MOVE "-" TO SIZE-X
           END-MULTIPLY
           DISPLAY "118 [" R4-X SIZE-X "]"
           MOVE 50 TO R1
           DIVIDE A1 BY 3 GIVING R1
           DISPLAY "119 [" R1-X "]"
           MOVE 50 TO R1
           DIVIDE A1 BY 3 GIVING R1 ROUNDED
               ON SIZE ERROR MOVE "E" TO SIZE-X
               NOT ON SIZE ERROR MOVE "-" TO SIZE-X
           END-DIVIDE
           DISPLAY "120 [" R1-X SIZE-X "]"
           MOVE -100.5 TO R2
           DIVIDE A1 BY 3 GIVING R2
           DISPLAY "121 [" R2-X "]"
           MOVE -100.5 TO R2
           DIVIDE A1 BY 3 GIVING R2 ROUNDED
               ON SIZE ERROR MOVE "E" TO SIZE-X
               NOT ON SIZE ERROR MOVE "-" TO SIZE-X
           END-DIVIDE
           DISPLAY "122 [" R2-X SIZE-X "]"
           MOVE 99990.25 TO R3
           DIVIDE A1 BY 3 GIVING R3
           DISPLAY "123 [" R3-X "]"
           MOVE 99990.25 TO R3
           DIVIDE A1 BY 3 GIVING R3 ROUNDED
               ON SIZE ERROR MOVE "E" TO SIZE-X
               NOT ON SIZE ERROR MOVE "-" TO SIZE-X
           END-DIVIDE
           DISPLAY "124 [" R3-X SIZE-X "]"
           MOVE 10 TO R4
           DIVIDE A1 BY 3 GIVING R4
           DISPLAY "125 [" R4-X "]"
           MOVE 10 TO R4
           DIVIDE A1 BY 3 GIVING R4 ROUNDED
               ON SIZE ERROR MOVE "E" TO SIZE-X
               NOT ON SIZE ERROR MOVE "-" TO SIZE-X
           END-DIVIDE
           DISPLAY "126 [" R4-X SIZE-X "]"
           MOVE 50 TO R1
           DIVIDE A2 BY 3 GIVING R1
           DISPLAY "127 [" R1-X "]"
           MOVE 50 TO R1
           DIVIDE A2 BY 3 GIVING R1 ROUNDED
               ON SIZE ERROR MOVE "E" TO SIZE-X
               NOT ON SIZE ERROR MOVE "-" TO SIZE-X
           END-DIVIDE
           DISPLAY "128 [" R1-X SIZE-X "]"
           MOVE -100.5 TO R2
           DIVIDE A2 BY 3 GIVING R2
           DISPLAY "129 [" R2-X "]"
           MOVE -100.5 TO R2
           DIVIDE A2 BY 3 GIVING R2 ROUNDED
               ON SIZE ERROR MOVE "E" TO SIZE-X
               NOT ON SIZE ERROR MOVE "-" TO SIZE-X
           END-DIVIDE
           DISPLAY "130 [" R2-X SIZE-X "]"
           MOVE 99990.25 TO R3
           DIVIDE A2 BY 3 GIVING R3
           DISPLAY "131 [" R3-X "]"
           MOVE 99990.25 TO R3
           DIVIDE A2 BY 3 GIVING R3 ROUNDED
               ON SIZE ERROR MOVE "E" TO SIZE-X
               NOT ON SIZE ERROR MOVE "-" TO SIZE-X
           END-DIVIDE
           DISPLAY "132 [" R3-X SIZE-X "]"
           MOVE 10 TO R4
           DIVIDE A2 BY 3 GIVING R4
           DISPLAY "133 [" R4-X "]"
           MOVE 10 TO R4
           DIVIDE A2 BY 3 GIVING R4 ROUNDED
               ON SIZE ERROR MOVE "E" TO SIZE-X
               NOT ON SIZE ERROR MOVE "-" TO SIZE-X
           END-DIVIDE
           DISPLAY "134 [" R4-X SIZE-X "]"
           MOVE 50 TO R1
           DIVIDE A3 BY 3 GIVING R1
           DISPLAY "135 [" R1-X "]"
           MOVE 50 TO R1
           DIVIDE A3 BY 3 GIVING R1 ROUNDED
               ON SIZE ERROR MOVE "E" TO SIZE-X
               NOT ON SIZE ERROR MOVE "-" TO SIZE-X
           END-DIVIDE
           DISPLAY "136 [" R1-X SIZE-X "]"
           MOVE -100.5 TO R2
           DIVIDE A3 BY 3 GIVING R2
           DISPLAY "137 [" R2-X "]"
           MOVE -100.5 TO R2
           DIVIDE A3 BY 3 GIVING R2 ROUNDED
               ON SIZE ERROR MOVE "E" TO SIZE-X
               NOT ON SIZE ERROR MOVE "-" TO SIZE-X
           END-DIVIDE
           DISPLAY "138 [" R2-X SIZE-X "]"
           MOVE 99990.25 TO R3
           DIVIDE A3 BY 3 GIVING R3
           DISPLAY "139 [" R3-X "]"
           MOVE 99990.25 TO R3
           DIVIDE A3 BY 3 GIVING R3 ROUNDED
               ON SIZE ERROR MOVE "E" TO SIZE-X
               NOT ON SIZE ERROR MOVE "-" TO SIZE-X
           END-DIVIDE
           DISPLAY "140 [" R3-X SIZE-X "]"
           MOVE 10 TO R4
           DIVIDE A3 BY 3 GIVING R4
           DISPLAY "141 [" R4-X "]"
           MOVE 10 TO R4
           DIVIDE A3 BY 3 GIVING R4 ROUNDED
               ON SIZE ERROR MOVE "E" TO SIZE-X
               NOT ON SIZE ERROR MOVE "-" TO SIZE-X
           END-DIVIDE
           DISPLAY "142 [" R4-X SIZE-X "]"
           MOVE 50 TO R1
           DIVIDE A4 BY 3 GIVING R1
           DISPLAY "143 [" R1-X "]"
           MOVE 50 TO R1
           DIVIDE A4 BY 3 GIVING R1 ROUNDED
               ON SIZE ERROR MOVE "E" TO SIZE-X
               NOT ON SIZE ERROR MOVE "-" TO SIZE-X
           END-DIVIDE
           DISPLAY "144 [" R1-X SIZE-X "]"
           MOVE -100.5 TO R2
           DIVIDE A4 BY 3 GIVING R2
           DISPLAY "145 [" R2-X "]"
           MOVE -100.5 TO R2
           DIVIDE A4 BY 3 GIVING R2 ROUNDED
               ON SIZE ERROR MOVE "E" TO SIZE-X
               NOT ON SIZE ERROR MOVE "-" TO SIZE-X
           END-DIVIDE
           DISPLAY "146 [" R2-X SIZE-X "]"
           MOVE 99990.25 TO R3
           DIVIDE A4 BY 3 GIVING R3
           DISPLAY "147 [" R3-X "]"
           MOVE 99990.25 TO R3
           DIVIDE A4 BY 3 GIVING R3 ROUNDED
               ON SIZE ERROR MOVE "E" TO SIZE-X
               NOT ON SIZE ERROR MOVE "-" TO SIZE-X
           END-DIVIDE
           DISPLAY "148 [" R3-X SIZE-X "]"
           MOVE 10 TO R4
           DIVIDE A4 BY 3 GIVING R4
           DISPLAY "149 [" R4-X "]"
           MOVE 10 TO R4
           DIVIDE A4 BY 3 GIVING R4 ROUNDED
               ON SIZE ERROR MOVE "E" TO SIZE-X
               NOT ON SIZE ERROR MOVE "-" TO SIZE-X
           END-DIVIDE
           DISPLAY "150 [" R4-X SIZE-X "]"
           MOVE 50 TO R1
           DIVIDE A5 BY 3 GIVING R1
           DISPLAY "151 [" R1-X "]"
           MOVE 50 TO R1
           DIVIDE A5 BY 3 GIVING R1 ROUNDED
               ON SIZE ERROR MOVE "E" TO SIZE-X
               NOT ON SIZE ERROR MOVE "-" TO SIZE-X
           END-DIVIDE
           DISPLAY "152 [" R1-X SIZE-X "]"
           MOVE -100.5 TO R2
           DIVIDE A5 BY 3 GIVING R2
           DISPLAY "153 [" R2-X "]"
           MOVE -100.5 TO R2
           DIVIDE A5 BY 3 GIVING R2 ROUNDED
               ON SIZE ERROR MOVE "E" TO SIZE-X
               NOT ON SIZE ERROR MOVE "-" TO SIZE-X
           END-DIVIDE
           DISPLAY "154 [" R2-X SIZE-X "]"
           MOVE 99990.25 TO R3
           DIVIDE A5 BY 3 GIVING R3
           DISPLAY "155 [" R3-X "]"
           MOVE 99990.25 TO R3
           DIVIDE A5 BY 3 GIVING R3 ROUNDED
               ON SIZE ERROR MOVE "E" TO SIZE-X
               NOT ON SIZE ERROR MOVE "-" TO SIZE-X
           END-DIVIDE
           DISPLAY "156 [" R3-X SIZE-X "]"
           MOVE 10 TO R4
           DIVIDE A5 BY 3 GIVING R4
           DISPLAY "157 [" R4-X "]"
           MOVE 10 TO R4
           DIVIDE A5 BY 3 GIVING R4 ROUNDED
               ON SIZE ERROR MOVE "E" TO SIZE-X
               NOT ON SIZE ERROR MOVE "-" TO SIZE-X
           END-DIVIDE
           DISPLAY "158 [" R4-X SIZE-X "]"
           STOP RUN.
