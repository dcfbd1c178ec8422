       IDENTIFICATION DIVISION.
       PROGRAM-ID. COMPUTE-SUMS.
       DATA DIVISION.
       WORKING-STORAGE SECTION.
       01 A1 PIC 9 VALUE 7.
       01 A1-X REDEFINES A1 PIC X(1).
       01 A2 PIC 9(4) VALUE 9876.
       01 A2-X REDEFINES A2 PIC X(4).
       01 A3 PIC 9(2)V99 VALUE 12.35.
       01 A3-X REDEFINES A3 PIC X(4).
       01 A4 PIC S9(3) VALUE -250.
       01 A4-X REDEFINES A4 PIC X(3).
       01 A5 PIC S9V9(4) VALUE -1.2345.
       01 A5-X REDEFINES A5 PIC X(5).
       01 R1 PIC 9(2) VALUE 50.
       01 R1-X REDEFINES R1 PIC X(2).
       01 R2 PIC S9(3)V9 VALUE -100.5.
       01 R2-X REDEFINES R2 PIC X(4).
       01 R3 PIC 9(5)V99 VALUE 99990.25.
       01 R3-X REDEFINES R3 PIC X(7).
       01 R4 PIC S9(2) SIGN LEADING SEPARATE VALUE 10.
       01 R4-X REDEFINES R4 PIC X(3).
       01 SIZE-X PIC X.
       PROCEDURE DIVISION.
       CASES.
           MOVE 0 TO R1
           COMPUTE R1 = A1 + A2 * A1
           DISPLAY "001 [" R1-X "]"
           MOVE 0 TO R1
           COMPUTE R1 ROUNDED = A1 + A2 * A1
               ON SIZE ERROR MOVE "E" TO SIZE-X
               NOT ON SIZE ERROR MOVE "-" TO SIZE-X
           END-COMPUTE
           DISPLAY "002 [" R1-X SIZE-X "]"
           MOVE 0 TO R2
           COMPUTE R2 = A1 + A2 * A1
           DISPLAY "003 [" R2-X "]"
           MOVE 0 TO R2
           COMPUTE R2 ROUNDED = A1 + A2 * A1
               ON SIZE ERROR MOVE "E" TO SIZE-X
               NOT ON SIZE ERROR MOVE "-" TO SIZE-X
           END-COMPUTE
           DISPLAY "004 [" R2-X SIZE-X "]"
           MOVE 0 TO R3
           COMPUTE R3 = A1 + A2 * A1
           DISPLAY "005 [" R3-X "]"
           MOVE 0 TO R3
           COMPUTE R3 ROUNDED = A1 + A2 * A1
               ON SIZE ERROR MOVE "E" TO SIZE-X
               NOT ON SIZE ERROR MOVE "-" TO SIZE-X
           END-COMPUTE
           DISPLAY "006 [" R3-X SIZE-X "]"
           MOVE 0 TO R4
           COMPUTE R4 = A1 + A2 * A1
           DISPLAY "007 [" R4-X "]"
           MOVE 0 TO R4
           COMPUTE R4 ROUNDED = A1 + A2 * A1
               ON SIZE ERROR MOVE "E" TO SIZE-X
               NOT ON SIZE ERROR MOVE "-" TO SIZE-X
           END-COMPUTE
           DISPLAY "008 [" R4-X SIZE-X "]"
           MOVE 0 TO R1
           COMPUTE R1 = (A1 + A2) * A1
           DISPLAY "009 [" R1-X "]"
           MOVE 0 TO R1
           COMPUTE R1 ROUNDED = (A1 + A2) * A1
               ON SIZE ERROR MOVE "E" TO SIZE-X
               NOT ON SIZE ERROR MOVE "-" TO SIZE-X
           END-COMPUTE
           DISPLAY "010 [" R1-X SIZE-X "]"
           MOVE 0 TO R2
           COMPUTE R2 = (A1 + A2) * A1
           DISPLAY "011 [" R2-X "]"
           MOVE 0 TO R2
           COMPUTE R2 ROUNDED = (A1 + A2) * A1
               ON SIZE ERROR MOVE "E" TO SIZE-X
               NOT ON SIZE ERROR MOVE "-" TO SIZE-X
           END-COMPUTE
           DISPLAY "012 [" R2-X SIZE-X "]"
           MOVE 0 TO R3
           COMPUTE R3 = (A1 + A2) * A1
           DISPLAY "013 [" R3-X "]"
           MOVE 0 TO R3
           COMPUTE R3 ROUNDED = (A1 + A2) * A1
               ON SIZE ERROR MOVE "E" TO SIZE-X
               NOT ON SIZE ERROR MOVE "-" TO SIZE-X
           END-COMPUTE
           DISPLAY "014 [" R3-X SIZE-X "]"
           MOVE 0 TO R4
           COMPUTE R4 = (A1 + A2) * A1
           DISPLAY "015 [" R4-X "]"
           MOVE 0 TO R4
           COMPUTE R4 ROUNDED = (A1 + A2) * A1
               ON SIZE ERROR MOVE "E" TO SIZE-X
               NOT ON SIZE ERROR MOVE "-" TO SIZE-X
           END-COMPUTE
           DISPLAY "016 [" R4-X SIZE-X "]"
           MOVE 0 TO R1
           COMPUTE R1 = A4 - A5
           DISPLAY "017 [" R1-X "]"
           MOVE 0 TO R1
           COMPUTE R1 ROUNDED = A4 - A5
               ON SIZE ERROR MOVE "E" TO SIZE-X
               NOT ON SIZE ERROR MOVE "-" TO SIZE-X
           END-COMPUTE
           DISPLAY "018 [" R1-X SIZE-X "]"
           MOVE 0 TO R2
           COMPUTE R2 = A4 - A5
           DISPLAY "019 [" R2-X "]"
           MOVE 0 TO R2
           COMPUTE R2 ROUNDED = A4 - A5
               ON SIZE ERROR MOVE "E" TO SIZE-X
               NOT ON SIZE ERROR MOVE "-" TO SIZE-X
           END-COMPUTE
           DISPLAY "020 [" R2-X SIZE-X "]"
           MOVE 0 TO R3
           COMPUTE R3 = A4 - A5
           DISPLAY "021 [" R3-X "]"
           MOVE 0 TO R3
           COMPUTE R3 ROUNDED = A4 - A5
               ON SIZE ERROR MOVE "E" TO SIZE-X
               NOT ON SIZE ERROR MOVE "-" TO SIZE-X
           END-COMPUTE
           DISPLAY "022 [" R3-X SIZE-X "]"
           MOVE 0 TO R4
           COMPUTE R4 = A4 - A5
           DISPLAY "023 [" R4-X "]"
           MOVE 0 TO R4
           COMPUTE R4 ROUNDED = A4 - A5
               ON SIZE ERROR MOVE "E" TO SIZE-X
               NOT ON SIZE ERROR MOVE "-" TO SIZE-X
           END-COMPUTE
           DISPLAY "024 [" R4-X SIZE-X "]"
           MOVE 0 TO R1
           COMPUTE R1 = - A4 + A3
           DISPLAY "025 [" R1-X "]"
           MOVE 0 TO R1
           COMPUTE R1 ROUNDED = - A4 + A3
               ON SIZE ERROR MOVE "E" TO SIZE-X
               NOT ON SIZE ERROR MOVE "-" TO SIZE-X
           END-COMPUTE
           DISPLAY "026 [" R1-X SIZE-X "]"
           MOVE 0 TO R2
           COMPUTE R2 = - A4 + A3
           DISPLAY "027 [" R2-X "]"
           MOVE 0 TO R2
           COMPUTE R2 ROUNDED = - A4 + A3
               ON SIZE ERROR MOVE "E" TO SIZE-X
               NOT ON SIZE ERROR MOVE "-" TO SIZE-X
           END-COMPUTE
           DISPLAY "028 [" R2-X SIZE-X "]"
           MOVE 0 TO R3
           COMPUTE R3 = - A4 + A3
           DISPLAY "029 [" R3-X "]"
           MOVE 0 TO R3
           COMPUTE R3 ROUNDED = - A4 + A3
               ON SIZE ERROR MOVE "E" TO SIZE-X
               NOT ON SIZE ERROR MOVE "-" TO SIZE-X
           END-COMPUTE
           DISPLAY "030 [" R3-X SIZE-X "]"
           MOVE 0 TO R4
           COMPUTE R4 = - A4 + A3
           DISPLAY "031 [" R4-X "]"
           MOVE 0 TO R4
           COMPUTE R4 ROUNDED = - A4 + A3
               ON SIZE ERROR MOVE "E" TO SIZE-X
               NOT ON SIZE ERROR MOVE "-" TO SIZE-X
           END-COMPUTE
           DISPLAY "032 [" R4-X SIZE-X "]"
           MOVE 0 TO R1
           COMPUTE R1 = A3 * A3
           DISPLAY "033 [" R1-X "]"
           MOVE 0 TO R1
           COMPUTE R1 ROUNDED = A3 * A3
               ON SIZE ERROR MOVE "E" TO SIZE-X
               NOT ON SIZE ERROR MOVE "-" TO SIZE-X
           END-COMPUTE
           DISPLAY "034 [" R1-X SIZE-X "]"
           MOVE 0 TO R2
           COMPUTE R2 = A3 * A3
           DISPLAY "035 [" R2-X "]"
           MOVE 0 TO R2
           COMPUTE R2 ROUNDED = A3 * A3
               ON SIZE ERROR MOVE "E" TO SIZE-X
               NOT ON SIZE ERROR MOVE "-" TO SIZE-X
           END-COMPUTE
           DISPLAY "036 [" R2-X SIZE-X "]"
           MOVE 0 TO R3
           COMPUTE R3 = A3 * A3
           DISPLAY "037 [" R3-X "]"
           MOVE 0 TO R3
           COMPUTE R3 ROUNDED = A3 * A3
               ON SIZE ERROR MOVE "E" TO SIZE-X
               NOT ON SIZE ERROR MOVE "-" TO SIZE-X
           END-COMPUTE
           DISPLAY "038 [" R3-X SIZE-X "]"
           MOVE 0 TO R4
           COMPUTE R4 = A3 * A3
           DISPLAY "039 [" R4-X "]"
           MOVE 0 TO R4
           COMPUTE R4 ROUNDED = A3 * A3
               ON SIZE ERROR MOVE "E" TO SIZE-X
               NOT ON SIZE ERROR MOVE "-" TO SIZE-X
           END-COMPUTE
           DISPLAY "040 [" R4-X SIZE-X "]"
           MOVE 0 TO R1
           COMPUTE R1 = A5 * A5 * A5
           DISPLAY "041 [" R1-X "]"
           MOVE 0 TO R1
           COMPUTE R1 ROUNDED = A5 * A5 * A5
               ON SIZE ERROR MOVE "E" TO SIZE-X
               NOT ON SIZE ERROR MOVE "-" TO SIZE-X
           END-COMPUTE
           DISPLAY "042 [" R1-X SIZE-X "]"
           MOVE 0 TO R2
           COMPUTE R2 = A5 * A5 * A5
           DISPLAY "043 [" R2-X "]"
           MOVE 0 TO R2
           COMPUTE R2 ROUNDED = A5 * A5 * A5
               ON SIZE ERROR MOVE "E" TO SIZE-X
               NOT ON SIZE ERROR MOVE "-" TO SIZE-X
           END-COMPUTE
           DISPLAY "044 [" R2-X SIZE-X "]"
           MOVE 0 TO R3
           COMPUTE R3 = A5 * A5 * A5
           DISPLAY "045 [" R3-X "]"
           MOVE 0 TO R3
           COMPUTE R3 ROUNDED = A5 * A5 * A5
               ON SIZE ERROR MOVE "E" TO SIZE-X
               NOT ON SIZE ERROR MOVE "-" TO SIZE-X
           END-COMPUTE
           DISPLAY "046 [" R3-X SIZE-X "]"
           MOVE 0 TO R4
           COMPUTE R4 = A5 * A5 * A5
           DISPLAY "047 [" R4-X "]"
           MOVE 0 TO R4
           COMPUTE R4 ROUNDED = A5 * A5 * A5
               ON SIZE ERROR MOVE "E" TO SIZE-X
               NOT ON SIZE ERROR MOVE "-" TO SIZE-X
           END-COMPUTE
           DISPLAY "048 [" R4-X SIZE-X "]"
           MOVE 0 TO R1
           COMPUTE R1 = A2 / A1
           DISPLAY "049 [" R1-X "]"
           MOVE 0 TO R1
           COMPUTE R1 ROUNDED = A2 / A1
               ON SIZE ERROR MOVE "E" TO SIZE-X
               NOT ON SIZE ERROR MOVE "-" TO SIZE-X
           END-COMPUTE
           DISPLAY "050 [" R1-X SIZE-X "]"
           MOVE 0 TO R2
           COMPUTE R2 = A2 / A1
           DISPLAY "051 [" R2-X "]"
           MOVE 0 TO R2
           COMPUTE R2 ROUNDED = A2 / A1
               ON SIZE ERROR MOVE "E" TO SIZE-X
               NOT ON SIZE ERROR MOVE "-" TO SIZE-X
           END-COMPUTE
           DISPLAY "052 [" R2-X SIZE-X "]"
           MOVE 0 TO R3
           COMPUTE R3 = A2 / A1
           DISPLAY "053 [" R3-X "]"
           MOVE 0 TO R3
           COMPUTE R3 ROUNDED = A2 / A1
               ON SIZE ERROR MOVE "E" TO SIZE-X
               NOT ON SIZE ERROR MOVE "-" TO SIZE-X
           END-COMPUTE
           DISPLAY "054 [" R3-X SIZE-X "]"
           MOVE 0 TO R4
           COMPUTE R4 = A2 / A1
           DISPLAY "055 [" R4-X "]"
           MOVE 0 TO R4
           COMPUTE R4 ROUNDED = A2 / A1
               ON SIZE ERROR MOVE "E" TO SIZE-X
               NOT ON SIZE ERROR MOVE "-" TO SIZE-X
           END-COMPUTE
           DISPLAY "056 [" R4-X SIZE-X "]"
           MOVE 0 TO R1
           COMPUTE R1 = A4 / 7 + 1
           DISPLAY "057 [" R1-X "]"
           MOVE 0 TO R1
           COMPUTE R1 ROUNDED = A4 / 7 + 1
               ON SIZE ERROR MOVE "E" TO SIZE-X
               NOT ON SIZE ERROR MOVE "-" TO SIZE-X
           END-COMPUTE
           DISPLAY "058 [" R1-X SIZE-X "]"
           MOVE 0 TO R2
           COMPUTE R2 = A4 / 7 + 1
           DISPLAY "059 [" R2-X "]"
           MOVE 0 TO R2
           COMPUTE R2 ROUNDED = A4 / 7 + 1
               ON SIZE ERROR MOVE "E" TO SIZE-X
               NOT ON SIZE ERROR MOVE "-" TO SIZE-X
           END-COMPUTE
           DISPLAY "060 [" R2-X SIZE-X "]"
           MOVE 0 TO R3
           COMPUTE R3 = A4 / 7 + 1
           DISPLAY "061 [" R3-X "]"
           MOVE 0 TO R3
           COMPUTE R3 ROUNDED = A4 / 7 + 1
               ON SIZE ERROR MOVE "E" TO SIZE-X
               NOT ON SIZE ERROR MOVE "-" TO SIZE-X
           END-COMPUTE
           DISPLAY "062 [" R3-X SIZE-X "]"
           MOVE 0 TO R4
           COMPUTE R4 = A4 / 7 + 1
           DISPLAY "063 [" R4-X "]"
           MOVE 0 TO R4
           COMPUTE R4 ROUNDED = A4 / 7 + 1
               ON SIZE ERROR MOVE "E" TO SIZE-X
               NOT ON SIZE ERROR MOVE "-" TO SIZE-X
           END-COMPUTE
           DISPLAY "064 [" R4-X SIZE-X "]"
           MOVE 0 TO R1
           COMPUTE R1 = A3 / A5
           DISPLAY "065 [" R1-X "]"
           MOVE 0 TO R1
           COMPUTE R1 ROUNDED = A3 / A5
               ON SIZE ERROR MOVE "E" TO SIZE-X
               NOT ON SIZE ERROR MOVE "-" TO SIZE-X
           END-COMPUTE
           DISPLAY "066 [" R1-X SIZE-X "]"
           MOVE 0 TO R2
           COMPUTE R2 = A3 / A5
           DISPLAY "067 [" R2-X "]"
           MOVE 0 TO R2
           COMPUTE R2 ROUNDED = A3 / A5
               ON SIZE ERROR MOVE "E" TO SIZE-X
               NOT ON SIZE ERROR MOVE "-" TO SIZE-X
           END-COMPUTE
           DISPLAY "068 [" R2-X SIZE-X "]"
           MOVE 0 TO R3
           COMPUTE R3 = A3 / A5
           DISPLAY "069 [" R3-X "]"
           MOVE 0 TO R3
           COMPUTE R3 ROUNDED = A3 / A5
               ON SIZE ERROR MOVE "E" TO SIZE-X
               NOT ON SIZE ERROR MOVE "-" TO SIZE-X
           END-COMPUTE
           DISPLAY "070 [" R3-X SIZE-X "]"
           MOVE 0 TO R4
           COMPUTE R4 = A3 / A5
           DISPLAY "071 [" R4-X "]"
           MOVE 0 TO R4
           COMPUTE R4 ROUNDED = A3 / A5
               ON SIZE ERROR MOVE "E" TO SIZE-X
               NOT ON SIZE ERROR MOVE "-" TO SIZE-X
           END-COMPUTE
           DISPLAY "072 [" R4-X SIZE-X "]"
           MOVE 0 TO R1
           COMPUTE R1 = (A1 - 10) * -2.5
           DISPLAY "073 [" R1-X "]"
           MOVE 0 TO R1
           COMPUTE R1 ROUNDED = (A1 - 10) * -2.5
               ON SIZE ERROR MOVE "E" TO SIZE-X
               NOT ON SIZE ERROR MOVE "-" TO SIZE-X
           END-COMPUTE
           DISPLAY "074 [" R1-X SIZE-X "]"
           MOVE 0 TO R2
           COMPUTE R2 = (A1 - 10) * -2.5
           DISPLAY "075 [" R2-X "]"
           MOVE 0 TO R2
           COMPUTE R2 ROUNDED = (A1 - 10) * -2.5
               ON SIZE ERROR MOVE "E" TO SIZE-X
               NOT ON SIZE ERROR MOVE "-" TO SIZE-X
           END-COMPUTE
           DISPLAY "076 [" R2-X SIZE-X "]"
           MOVE 0 TO R3
           COMPUTE R3 = (A1 - 10) * -2.5
           DISPLAY "077 [" R3-X "]"
           MOVE 0 TO R3
           COMPUTE R3 ROUNDED = (A1 - 10) * -2.5
               ON SIZE ERROR MOVE "E" TO SIZE-X
               NOT ON SIZE ERROR MOVE "-" TO SIZE-X
           END-COMPUTE
           DISPLAY "078 [" R3-X SIZE-X "]"
           MOVE 0 TO R4
           COMPUTE R4 = (A1 - 10) * -2.5
           DISPLAY "079 [" R4-X "]"
           MOVE 0 TO R4
           COMPUTE R4 ROUNDED = (A1 - 10) * -2.5
               ON SIZE ERROR MOVE "E" TO SIZE-X
               NOT ON SIZE ERROR MOVE "-" TO SIZE-X
           END-COMPUTE
           DISPLAY "080 [" R4-X SIZE-X "]"
           MOVE 0 TO R1
           COMPUTE R1 = A1 / 4 * 4
           DISPLAY "081 [" R1-X "]"
           MOVE 0 TO R1
           COMPUTE R1 ROUNDED = A1 / 4 * 4
               ON SIZE ERROR MOVE "E" TO SIZE-X
               NOT ON SIZE ERROR MOVE "-" TO SIZE-X
           END-COMPUTE
           DISPLAY "082 [" R1-X SIZE-X "]"
           MOVE 0 TO R2
           COMPUTE R2 = A1 / 4 * 4
           DISPLAY "083 [" R2-X "]"
           MOVE 0 TO R2
           COMPUTE R2 ROUNDED = A1 / 4 * 4
               ON SIZE ERROR MOVE "E" TO SIZE-X
               NOT ON SIZE ERROR MOVE "-" TO SIZE-X
           END-COMPUTE
           DISPLAY "084 [" R2-X SIZE-X "]"
           MOVE 0 TO R3
           COMPUTE R3 = A1 / 4 * 4
           DISPLAY "085 [" R3-X "]"
           MOVE 0 TO R3
           COMPUTE R3 ROUNDED = A1 / 4 * 4
               ON SIZE ERROR MOVE "E" TO SIZE-X
               NOT ON SIZE ERROR MOVE "-" TO SIZE-X
           END-COMPUTE
           DISPLAY "086 [" R3-X SIZE-X "]"
           MOVE 0 TO R4
           COMPUTE R4 = A1 / 4 * 4
           DISPLAY "087 [" R4-X "]"
           MOVE 0 TO R4
           COMPUTE R4 ROUNDED = A1 / 4 * 4
               ON SIZE ERROR MOVE "E" TO SIZE-X
               NOT ON SIZE ERROR MOVE "-" TO SIZE-X
           END-COMPUTE
           DISPLAY "088 [" R4-X SIZE-X "]"
           MOVE 0 TO R1
           COMPUTE R1 = 1 / 3
           DISPLAY "089 [" R1-X "]"
           MOVE 0 TO R1
           COMPUTE R1 ROUNDED = 1 / 3
               ON SIZE ERROR MOVE "E" TO SIZE-X
               NOT ON SIZE ERROR MOVE "-" TO SIZE-X
           END-COMPUTE
           DISPLAY "090 [" R1-X SIZE-X "]"
           MOVE 0 TO R2
           COMPUTE R2 = 1 / 3
           DISPLAY "091 [" R2-X "]"
           MOVE 0 TO R2
           COMPUTE R2 ROUNDED = 1 / 3
               ON SIZE ERROR MOVE "E" TO SIZE-X
               NOT ON SIZE ERROR MOVE "-" TO SIZE-X
           END-COMPUTE
           DISPLAY "092 [" R2-X SIZE-X "]"
           MOVE 0 TO R3
           COMPUTE R3 = 1 / 3
           DISPLAY "093 [" R3-X "]"
           MOVE 0 TO R3
           COMPUTE R3 ROUNDED = 1 / 3
               ON SIZE ERROR MOVE "E" TO SIZE-X
               NOT ON SIZE ERROR MOVE "-" TO SIZE-X
           END-COMPUTE
           DISPLAY "094 [" R3-X SIZE-X "]"
           MOVE 0 TO R4
           COMPUTE R4 = 1 / 3
           DISPLAY "095 [" R4-X "]"
           MOVE 0 TO R4
           COMPUTE R4 ROUNDED = 1 / 3
               ON SIZE ERROR MOVE "E" TO SIZE-X
               NOT ON SIZE ERROR MOVE "-" TO SIZE-X
           END-COMPUTE
           DISPLAY "096 [" R4-X SIZE-X "]"
           MOVE 0 TO R1
           COMPUTE R1 = A4 / A1 / A1
           DISPLAY "097 [" R1-X "]"
           MOVE 0 TO R1
           COMPUTE R1 ROUNDED = A4 / A1 / A1
               ON SIZE ERROR MOVE "E" TO SIZE-X
               NOT ON SIZE ERROR MOVE "-" TO SIZE-X
           END-COMPUTE
           DISPLAY "098 [" R1-X SIZE-X "]"
           MOVE 0 TO R2
           COMPUTE R2 = A4 / A1 / A1
           DISPLAY "099 [" R2-X "]"
           MOVE 0 TO R2
           COMPUTE R2 ROUNDED = A4 / A1 / A1
               ON SIZE ERROR MOVE "E" TO SIZE-X
               NOT ON SIZE ERROR MOVE "-" TO SIZE-X
           END-COMPUTE
           DISPLAY "100 [" R2-X SIZE-X "]"
           MOVE 0 TO R3
           COMPUTE R3 = A4 / A1 / A1
           DISPLAY "101 [" R3-X "]"
           MOVE 0 TO R3
           COMPUTE R3 ROUNDED = A4 / A1 / A1
               ON SIZE ERROR MOVE "E" TO SIZE-X
               NOT ON SIZE ERROR MOVE "-" TO SIZE-X
           END-COMPUTE
           DISPLAY "102 [" R3-X SIZE-X "]"
           MOVE 0 TO R4
           COMPUTE R4 = A4 / A1 / A1
           DISPLAY "103 [" R4-X "]"
           MOVE 0 TO R4
           COMPUTE R4 ROUNDED = A4 / A1 / A1
               ON SIZE ERROR MOVE "E" TO SIZE-X
               NOT ON SIZE ERROR MOVE "-" TO SIZE-X
           END-COMPUTE
           DISPLAY "104 [" R4-X SIZE-X "]"
           MOVE 0 TO R1
           COMPUTE R1 = 100 - A2
           DISPLAY "105 [" R1-X "]"
           MOVE 0 TO R1
           COMPUTE R1 ROUNDED = 100 - A2
               ON SIZE ERROR MOVE "E" TO SIZE-X
               NOT ON SIZE ERROR MOVE "-" TO SIZE-X
           END-COMPUTE
           DISPLAY "106 [" R1-X SIZE-X "]"
           MOVE 0 TO R2
           COMPUTE R2 = 100 - A2
           DISPLAY "107 [" R2-X "]"
           MOVE 0 TO R2
           COMPUTE R2 ROUNDED = 100 - A2
               ON SIZE ERROR MOVE "E" TO SIZE-X
               NOT ON SIZE ERROR MOVE "-" TO SIZE-X
           END-COMPUTE
           DISPLAY "108 [" R2-X SIZE-X "]"
           MOVE 0 TO R3
           COMPUTE R3 = 100 - A2
           DISPLAY "109 [" R3-X "]"
           MOVE 0 TO R3
           COMPUTE R3 ROUNDED = 100 - A2
               ON SIZE ERROR MOVE "E" TO SIZE-X
               NOT ON SIZE ERROR MOVE "-" TO SIZE-X
           END-COMPUTE
           DISPLAY "110 [" R3-X SIZE-X "]"
           MOVE 0 TO R4
           COMPUTE R4 = 100 - A2
           DISPLAY "111 [" R4-X "]"
           MOVE 0 TO R4
           COMPUTE R4 ROUNDED = 100 - A2
               ON SIZE ERROR MOVE "E" TO SIZE-X
               NOT ON SIZE ERROR MOVE "-" TO SIZE-X
           END-COMPUTE
           DISPLAY "112 [" R4-X SIZE-X "]"
           STOP RUN.
