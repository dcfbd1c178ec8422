       IDENTIFICATION DIVISION.
       PROGRAM-ID. MOVE-TEXTS.
       DATA DIVISION.
       WORKING-STORAGE SECTION.
       01 T1 PIC X(5) VALUE "AbC-9".
       01 T2 PIC X(2) VALUE "ZZ".
       01 T3 PIC A(4) VALUE "Name".
       01 T4 PIC X(6) VALUE "001234".
       01 N1 PIC 9(4) VALUE 1234.
       01 N1-X REDEFINES N1 PIC X(4).
       01 N2 PIC S9(3) VALUE -120.
       01 N2-X REDEFINES N2 PIC X(3).
       01 N3 PIC S9(2) SIGN LEADING SEPARATE VALUE -45.
       01 N3-X REDEFINES N3 PIC X(3).
       01 G1.
           05 G1-A PIC X(2) VALUE "GA".
           05 G1-N PIC 9(3) VALUE 42.
       01 R1 PIC X.
       01 R2 PIC X(4).
       01 R3 PIC X(8).
       01 R4 PIC A(6).
       01 R5.
           05 R5-A PIC X(3).
           05 R5-N PIC 9(3).
       01 D1 PIC 9(3) VALUE 0.
       01 D1-X REDEFINES D1 PIC X(3).
       01 D2 PIC 9(4)V99 VALUE 0.
       01 D2-X REDEFINES D2 PIC X(6).
       01 D3 PIC S9(6) VALUE 0.
       01 D3-X REDEFINES D3 PIC X(6).
       PROCEDURE DIVISION.
       CASES.
           MOVE T1 TO R1
           DISPLAY "001 [" R1 "]"
           MOVE T1 TO R2
           DISPLAY "002 [" R2 "]"
           MOVE T1 TO R3
           DISPLAY "003 [" R3 "]"
           MOVE T1 TO R4
           DISPLAY "004 [" R4 "]"
           MOVE T1 TO R5
           DISPLAY "005 [" R5 "]"
           MOVE T2 TO R1
           DISPLAY "006 [" R1 "]"
           MOVE T2 TO R2
           DISPLAY "007 [" R2 "]"
           MOVE T2 TO R3
           DISPLAY "008 [" R3 "]"
           MOVE T2 TO R4
           DISPLAY "009 [" R4 "]"
           MOVE T2 TO R5
           DISPLAY "010 [" R5 "]"
           MOVE T3 TO R1
           DISPLAY "011 [" R1 "]"
           MOVE T3 TO R2
           DISPLAY "012 [" R2 "]"
           MOVE T3 TO R3
           DISPLAY "013 [" R3 "]"
           MOVE T3 TO R4
           DISPLAY "014 [" R4 "]"
           MOVE T3 TO R5
           DISPLAY "015 [" R5 "]"
           MOVE T4 TO R1
           DISPLAY "016 [" R1 "]"
           MOVE T4 TO R2
           DISPLAY "017 [" R2 "]"
           MOVE T4 TO R3
           DISPLAY "018 [" R3 "]"
           MOVE T4 TO R4
           DISPLAY "019 [" R4 "]"
           MOVE T4 TO R5
           DISPLAY "020 [" R5 "]"
           MOVE G1 TO R1
           DISPLAY "021 [" R1 "]"
           MOVE G1 TO R2
           DISPLAY "022 [" R2 "]"
           MOVE G1 TO R3
           DISPLAY "023 [" R3 "]"
           MOVE G1 TO R4
           DISPLAY "024 [" R4 "]"
           MOVE G1 TO R5
           DISPLAY "025 [" R5 "]"
           MOVE "A literal" TO R1
           DISPLAY "026 [" R1 "]"
           MOVE "A literal" TO R2
           DISPLAY "027 [" R2 "]"
           MOVE "A literal" TO R3
           DISPLAY "028 [" R3 "]"
           MOVE "A literal" TO R4
           DISPLAY "029 [" R4 "]"
           MOVE "A literal" TO R5
           DISPLAY "030 [" R5 "]"
           MOVE "7" TO R1
           DISPLAY "031 [" R1 "]"
           MOVE "7" TO R2
           DISPLAY "032 [" R2 "]"
           MOVE "7" TO R3
           DISPLAY "033 [" R3 "]"
           MOVE "7" TO R4
           DISPLAY "034 [" R4 "]"
           MOVE "7" TO R5
           DISPLAY "035 [" R5 "]"
           MOVE SPACES TO R1
           DISPLAY "036 [" R1 "]"
           MOVE SPACES TO R2
           DISPLAY "037 [" R2 "]"
           MOVE SPACES TO R3
           DISPLAY "038 [" R3 "]"
           MOVE SPACES TO R4
           DISPLAY "039 [" R4 "]"
           MOVE SPACES TO R5
           DISPLAY "040 [" R5 "]"
           MOVE HIGH-VALUES TO R1
           IF R1 = HIGH-VALUES
               MOVE "H" TO R1
           END-IF
           DISPLAY "041 [" R1 "]"
           MOVE HIGH-VALUES TO R2
           IF R2 = HIGH-VALUES
               MOVE "H" TO R2
           END-IF
           DISPLAY "042 [" R2 "]"
           MOVE HIGH-VALUES TO R3
           IF R3 = HIGH-VALUES
               MOVE "H" TO R3
           END-IF
           DISPLAY "043 [" R3 "]"
           MOVE HIGH-VALUES TO R4
           IF R4 = HIGH-VALUES
               MOVE "H" TO R4
           END-IF
           DISPLAY "044 [" R4 "]"
           MOVE HIGH-VALUES TO R5
           IF R5 = HIGH-VALUES
               MOVE "H" TO R5
           END-IF
           DISPLAY "045 [" R5 "]"
           MOVE QUOTES TO R1
           DISPLAY "046 [" R1 "]"
           MOVE QUOTES TO R2
           DISPLAY "047 [" R2 "]"
           MOVE QUOTES TO R3
           DISPLAY "048 [" R3 "]"
           MOVE QUOTES TO R4
           DISPLAY "049 [" R4 "]"
           MOVE QUOTES TO R5
           DISPLAY "050 [" R5 "]"
           MOVE N1 TO R1
           DISPLAY "051 [" R1 "]"
           MOVE N1 TO R2
           DISPLAY "052 [" R2 "]"
           MOVE N1 TO R3
           DISPLAY "053 [" R3 "]"
           MOVE N1 TO R5
           DISPLAY "054 [" R5 "]"
           MOVE N2 TO R1
           DISPLAY "055 [" R1 "]"
           MOVE N2 TO R2
           DISPLAY "056 [" R2 "]"
           MOVE N2 TO R3
           DISPLAY "057 [" R3 "]"
           MOVE N2 TO R5
           DISPLAY "058 [" R5 "]"
           MOVE N3 TO R1
           DISPLAY "059 [" R1 "]"
           MOVE N3 TO R2
           DISPLAY "060 [" R2 "]"
           MOVE N3 TO R3
           DISPLAY "061 [" R3 "]"
           MOVE N3 TO R5
           DISPLAY "062 [" R5 "]"
           MOVE ZEROS TO R1
           DISPLAY "063 [" R1 "]"
           MOVE ZEROS TO R2
           DISPLAY "064 [" R2 "]"
           MOVE ZEROS TO R3
           DISPLAY "065 [" R3 "]"
           MOVE ZEROS TO R5
           DISPLAY "066 [" R5 "]"
           MOVE T4 TO D1
           DISPLAY "067 [" D1-X "]"
           MOVE T4 TO D2
           DISPLAY "068 [" D2-X "]"
           MOVE T4 TO D3
           DISPLAY "069 [" D3-X "]"
           MOVE "0042" TO D1
           DISPLAY "070 [" D1-X "]"
           MOVE "0042" TO D2
           DISPLAY "071 [" D2-X "]"
           MOVE "0042" TO D3
           DISPLAY "072 [" D3-X "]"
           MOVE "123" TO D1
           DISPLAY "073 [" D1-X "]"
           MOVE "123" TO D2
           DISPLAY "074 [" D2-X "]"
           MOVE "123" TO D3
           DISPLAY "075 [" D3-X "]"
           MOVE T1 (2 : 3) TO R3
           DISPLAY "076 [" R3 "]"
           MOVE "********" TO R3
           MOVE T1 (2 : 3) TO R3 (3 : 4)
           DISPLAY "077 [" R3 "]"
           MOVE T1 (4 :) TO R3
           DISPLAY "078 [" R3 "]"
           MOVE "********" TO R3
           MOVE T1 (4 :) TO R3 (3 : 4)
           DISPLAY "079 [" R3 "]"
           MOVE T4 (3 : 2) TO R3
           DISPLAY "080 [" R3 "]"
           MOVE "********" TO R3
           MOVE T4 (3 : 2) TO R3 (3 : 4)
           DISPLAY "081 [" R3 "]"
           STOP RUN.
