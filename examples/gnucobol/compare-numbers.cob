       IDENTIFICATION DIVISION.
       PROGRAM-ID. COMPARE-NUMBERS.
       DATA DIVISION.
       WORKING-STORAGE SECTION.
       01 A1 PIC 9 VALUE 7.
       01 A1-X REDEFINES A1 PIC X(1).
       01 A2 PIC 9(5) VALUE 12345.
       01 A2-X REDEFINES A2 PIC X(5).
       01 A3 PIC 9(3)V99 VALUE 123.45.
       01 A3-X REDEFINES A3 PIC X(5).
       01 A4 PIC S9(4) VALUE -1234.
       01 A4-X REDEFINES A4 PIC X(4).
       01 A5 PIC S9(2)V9(3) VALUE -12.345.
       01 A5-X REDEFINES A5 PIC X(5).
       01 A6 PIC V9(4) VALUE 0.9876.
       01 A6-X REDEFINES A6 PIC X(4).
       01 A7 PIC S9(3) SIGN LEADING SEPARATE VALUE -120.
       01 A7-X REDEFINES A7 PIC X(4).
       01 A8 PIC S9(2)V9 SIGN TRAILING SEPARATE VALUE +98.7.
       01 A8-X REDEFINES A8 PIC X(4).
       01 A9 PIC S9(9)V9(9) VALUE -123456789.987654321.
       01 A9-X REDEFINES A9 PIC X(18).
       01 A10 PIC 9(18) VALUE 998877665544332211.
       01 A10-X REDEFINES A10 PIC X(18).
       01 B1 PIC S9(6)V9(3) VALUE -12.345.
       01 B1-X REDEFINES B1 PIC X(9).
       01 B2 PIC 9(2)V9 VALUE 98.7.
       01 B2-X REDEFINES B2 PIC X(3).
       01 B3 PIC S9(3) VALUE -0.
       01 B3-X REDEFINES B3 PIC X(3).
       PROCEDURE DIVISION.
       CASES.
           IF A1 = B1
               DISPLAY "Y" NO ADVANCING
           ELSE DISPLAY "N" NO ADVANCING.
           IF A1 < B1
               DISPLAY "Y" NO ADVANCING
           ELSE DISPLAY "N" NO ADVANCING.
           IF A1 NOT > B1
               DISPLAY "Y" NO ADVANCING
           ELSE DISPLAY "N" NO ADVANCING.
           DISPLAY " 001".
           IF A1 = B2
               DISPLAY "Y" NO ADVANCING
           ELSE DISPLAY "N" NO ADVANCING.
           IF A1 < B2
               DISPLAY "Y" NO ADVANCING
           ELSE DISPLAY "N" NO ADVANCING.
           IF A1 NOT > B2
               DISPLAY "Y" NO ADVANCING
           ELSE DISPLAY "N" NO ADVANCING.
           DISPLAY " 002".
           IF A1 = B3
               DISPLAY "Y" NO ADVANCING
           ELSE DISPLAY "N" NO ADVANCING.
           IF A1 < B3
               DISPLAY "Y" NO ADVANCING
           ELSE DISPLAY "N" NO ADVANCING.
           IF A1 NOT > B3
               DISPLAY "Y" NO ADVANCING
           ELSE DISPLAY "N" NO ADVANCING.
           DISPLAY " 003".
           IF A1 = 7
               DISPLAY "Y" NO ADVANCING
           ELSE DISPLAY "N" NO ADVANCING.
           IF A1 < 7
               DISPLAY "Y" NO ADVANCING
           ELSE DISPLAY "N" NO ADVANCING.
           IF A1 NOT > 7
               DISPLAY "Y" NO ADVANCING
           ELSE DISPLAY "N" NO ADVANCING.
           DISPLAY " 004".
           IF A1 = -9
               DISPLAY "Y" NO ADVANCING
           ELSE DISPLAY "N" NO ADVANCING.
           IF A1 < -9
               DISPLAY "Y" NO ADVANCING
           ELSE DISPLAY "N" NO ADVANCING.
           IF A1 NOT > -9
               DISPLAY "Y" NO ADVANCING
           ELSE DISPLAY "N" NO ADVANCING.
           DISPLAY " 005".
           IF A1 = ZERO
               DISPLAY "Y" NO ADVANCING
           ELSE DISPLAY "N" NO ADVANCING.
           IF A1 < ZERO
               DISPLAY "Y" NO ADVANCING
           ELSE DISPLAY "N" NO ADVANCING.
           IF A1 NOT > ZERO
               DISPLAY "Y" NO ADVANCING
           ELSE DISPLAY "N" NO ADVANCING.
           DISPLAY " 006".
           IF A1 = A1 + A4
               DISPLAY "Y" NO ADVANCING
           ELSE DISPLAY "N" NO ADVANCING.
           IF A1 < A1 + A4
               DISPLAY "Y" NO ADVANCING
           ELSE DISPLAY "N" NO ADVANCING.
           IF A1 NOT > A1 + A4
               DISPLAY "Y" NO ADVANCING
           ELSE DISPLAY "N" NO ADVANCING.
           DISPLAY " 007".
           IF A3 = B1
               DISPLAY "Y" NO ADVANCING
           ELSE DISPLAY "N" NO ADVANCING.
           IF A3 < B1
               DISPLAY "Y" NO ADVANCING
           ELSE DISPLAY "N" NO ADVANCING.
           IF A3 NOT > B1
               DISPLAY "Y" NO ADVANCING
           ELSE DISPLAY "N" NO ADVANCING.
           DISPLAY " 008".
           IF A3 = B2
               DISPLAY "Y" NO ADVANCING
           ELSE DISPLAY "N" NO ADVANCING.
           IF A3 < B2
               DISPLAY "Y" NO ADVANCING
           ELSE DISPLAY "N" NO ADVANCING.
           IF A3 NOT > B2
               DISPLAY "Y" NO ADVANCING
           ELSE DISPLAY "N" NO ADVANCING.
           DISPLAY " 009".
           IF A3 = B3
               DISPLAY "Y" NO ADVANCING
           ELSE DISPLAY "N" NO ADVANCING.
           IF A3 < B3
               DISPLAY "Y" NO ADVANCING
           ELSE DISPLAY "N" NO ADVANCING.
           IF A3 NOT > B3
               DISPLAY "Y" NO ADVANCING
           ELSE DISPLAY "N" NO ADVANCING.
           DISPLAY " 010".
           IF A3 = 7
               DISPLAY "Y" NO ADVANCING
           ELSE DISPLAY "N" NO ADVANCING.
           IF A3 < 7
               DISPLAY "Y" NO ADVANCING
           ELSE DISPLAY "N" NO ADVANCING.
           IF A3 NOT > 7
               DISPLAY "Y" NO ADVANCING
           ELSE DISPLAY "N" NO ADVANCING.
           DISPLAY " 011".
           IF A3 = -9
               DISPLAY "Y" NO ADVANCING
           ELSE DISPLAY "N" NO ADVANCING.
           IF A3 < -9
               DISPLAY "Y" NO ADVANCING
           ELSE DISPLAY "N" NO ADVANCING.
           IF A3 NOT > -9
               DISPLAY "Y" NO ADVANCING
           ELSE DISPLAY "N" NO ADVANCING.
           DISPLAY " 012".
           IF A3 = ZERO
               DISPLAY "Y" NO ADVANCING
           ELSE DISPLAY "N" NO ADVANCING.
           IF A3 < ZERO
               DISPLAY "Y" NO ADVANCING
           ELSE DISPLAY "N" NO ADVANCING.
           IF A3 NOT > ZERO
               DISPLAY "Y" NO ADVANCING
           ELSE DISPLAY "N" NO ADVANCING.
           DISPLAY " 013".
           IF A3 = A1 + A4
               DISPLAY "Y" NO ADVANCING
           ELSE DISPLAY "N" NO ADVANCING.
           IF A3 < A1 + A4
               DISPLAY "Y" NO ADVANCING
           ELSE DISPLAY "N" NO ADVANCING.
           IF A3 NOT > A1 + A4
               DISPLAY "Y" NO ADVANCING
           ELSE DISPLAY "N" NO ADVANCING.
           DISPLAY " 014".
           IF A4 = B1
               DISPLAY "Y" NO ADVANCING
           ELSE DISPLAY "N" NO ADVANCING.
           IF A4 < B1
               DISPLAY "Y" NO ADVANCING
           ELSE DISPLAY "N" NO ADVANCING.
           IF A4 NOT > B1
               DISPLAY "Y" NO ADVANCING
           ELSE DISPLAY "N" NO ADVANCING.
           DISPLAY " 015".
           IF A4 = B2
               DISPLAY "Y" NO ADVANCING
           ELSE DISPLAY "N" NO ADVANCING.
           IF A4 < B2
               DISPLAY "Y" NO ADVANCING
           ELSE DISPLAY "N" NO ADVANCING.
           IF A4 NOT > B2
               DISPLAY "Y" NO ADVANCING
           ELSE DISPLAY "N" NO ADVANCING.
           DISPLAY " 016".
           IF A4 = B3
               DISPLAY "Y" NO ADVANCING
           ELSE DISPLAY "N" NO ADVANCING.
           IF A4 < B3
               DISPLAY "Y" NO ADVANCING
           ELSE DISPLAY "N" NO ADVANCING.
           IF A4 NOT > B3
               DISPLAY "Y" NO ADVANCING
           ELSE DISPLAY "N" NO ADVANCING.
           DISPLAY " 017".
           IF A4 = 7
               DISPLAY "Y" NO ADVANCING
           ELSE DISPLAY "N" NO ADVANCING.
           IF A4 < 7
               DISPLAY "Y" NO ADVANCING
           ELSE DISPLAY "N" NO ADVANCING.
           IF A4 NOT > 7
               DISPLAY "Y" NO ADVANCING
           ELSE DISPLAY "N" NO ADVANCING.
           DISPLAY " 018".
           IF A4 = -9
               DISPLAY "Y" NO ADVANCING
           ELSE DISPLAY "N" NO ADVANCING.
           IF A4 < -9
               DISPLAY "Y" NO ADVANCING
           ELSE DISPLAY "N" NO ADVANCING.
           IF A4 NOT > -9
               DISPLAY "Y" NO ADVANCING
           ELSE DISPLAY "N" NO ADVANCING.
           DISPLAY " 019".
           IF A4 = ZERO
               DISPLAY "Y" NO ADVANCING
           ELSE DISPLAY "N" NO ADVANCING.
           IF A4 < ZERO
               DISPLAY "Y" NO ADVANCING
           ELSE DISPLAY "N" NO ADVANCING.
           IF A4 NOT > ZERO
               DISPLAY "Y" NO ADVANCING
           ELSE DISPLAY "N" NO ADVANCING.
           DISPLAY " 020".
           IF A4 = A1 + A4
               DISPLAY "Y" NO ADVANCING
           ELSE DISPLAY "N" NO ADVANCING.
           IF A4 < A1 + A4
               DISPLAY "Y" NO ADVANCING
           ELSE DISPLAY "N" NO ADVANCING.
           IF A4 NOT > A1 + A4
               DISPLAY "Y" NO ADVANCING
           ELSE DISPLAY "N" NO ADVANCING.
           DISPLAY " 021".
           IF A5 = B1
               DISPLAY "Y" NO ADVANCING
           ELSE DISPLAY "N" NO ADVANCING.
           IF A5 < B1
               DISPLAY "Y" NO ADVANCING
           ELSE DISPLAY "N" NO ADVANCING.
           IF A5 NOT > B1
               DISPLAY "Y" NO ADVANCING
           ELSE DISPLAY "N" NO ADVANCING.
           DISPLAY " 022".
           IF A5 = B2
               DISPLAY "Y" NO ADVANCING
           ELSE DISPLAY "N" NO ADVANCING.
           IF A5 < B2
               DISPLAY "Y" NO ADVANCING
           ELSE DISPLAY "N" NO ADVANCING.
           IF A5 NOT > B2
               DISPLAY "Y" NO ADVANCING
           ELSE DISPLAY "N" NO ADVANCING.
           DISPLAY " 023".
           IF A5 = B3
               DISPLAY "Y" NO ADVANCING
           ELSE DISPLAY "N" NO ADVANCING.
           IF A5 < B3
               DISPLAY "Y" NO ADVANCING
           ELSE DISPLAY "N" NO ADVANCING.
           IF A5 NOT > B3
               DISPLAY "Y" NO ADVANCING
           ELSE DISPLAY "N" NO ADVANCING.
           DISPLAY " 024".
           IF A5 = 7
               DISPLAY "Y" NO ADVANCING
           ELSE DISPLAY "N" NO ADVANCING.
           IF A5 < 7
               DISPLAY "Y" NO ADVANCING
           ELSE DISPLAY "N" NO ADVANCING.
           IF A5 NOT > 7
               DISPLAY "Y" NO ADVANCING
           ELSE DISPLAY "N" NO ADVANCING.
           DISPLAY " 025".
           IF A5 = -9
               DISPLAY "Y" NO ADVANCING
           ELSE DISPLAY "N" NO ADVANCING.
           IF A5 < -9
               DISPLAY "Y" NO ADVANCING
           ELSE DISPLAY "N" NO ADVANCING.
           IF A5 NOT > -9
               DISPLAY "Y" NO ADVANCING
           ELSE DISPLAY "N" NO ADVANCING.
           DISPLAY " 026".
           IF A5 = ZERO
               DISPLAY "Y" NO ADVANCING
           ELSE DISPLAY "N" NO ADVANCING.
           IF A5 < ZERO
               DISPLAY "Y" NO ADVANCING
           ELSE DISPLAY "N" NO ADVANCING.
           IF A5 NOT > ZERO
               DISPLAY "Y" NO ADVANCING
           ELSE DISPLAY "N" NO ADVANCING.
           DISPLAY " 027".
           IF A5 = A1 + A4
               DISPLAY "Y" NO ADVANCING
           ELSE DISPLAY "N" NO ADVANCING.
           IF A5 < A1 + A4
               DISPLAY "Y" NO ADVANCING
           ELSE DISPLAY "N" NO ADVANCING.
           IF A5 NOT > A1 + A4
               DISPLAY "Y" NO ADVANCING
           ELSE DISPLAY "N" NO ADVANCING.
           DISPLAY " 028".
           IF A7 = B1
               DISPLAY "Y" NO ADVANCING
           ELSE DISPLAY "N" NO ADVANCING.
           IF A7 < B1
               DISPLAY "Y" NO ADVANCING
           ELSE DISPLAY "N" NO ADVANCING.
           IF A7 NOT > B1
               DISPLAY "Y" NO ADVANCING
           ELSE DISPLAY "N" NO ADVANCING.
           DISPLAY " 029".
           IF A7 = B2
               DISPLAY "Y" NO ADVANCING
           ELSE DISPLAY "N" NO ADVANCING.
           IF A7 < B2
               DISPLAY "Y" NO ADVANCING
           ELSE DISPLAY "N" NO ADVANCING.
           IF A7 NOT > B2
               DISPLAY "Y" NO ADVANCING
           ELSE DISPLAY "N" NO ADVANCING.
           DISPLAY " 030".
           IF A7 = B3
               DISPLAY "Y" NO ADVANCING
           ELSE DISPLAY "N" NO ADVANCING.
           IF A7 < B3
               DISPLAY "Y" NO ADVANCING
           ELSE DISPLAY "N" NO ADVANCING.
           IF A7 NOT > B3
               DISPLAY "Y" NO ADVANCING
           ELSE DISPLAY "N" NO ADVANCING.
           DISPLAY " 031".
           IF A7 = 7
               DISPLAY "Y" NO ADVANCING
           ELSE DISPLAY "N" NO ADVANCING.
           IF A7 < 7
               DISPLAY "Y" NO ADVANCING
           ELSE DISPLAY "N" NO ADVANCING.
           IF A7 NOT > 7
               DISPLAY "Y" NO ADVANCING
           ELSE DISPLAY "N" NO ADVANCING.
           DISPLAY " 032".
           IF A7 = -9
               DISPLAY "Y" NO ADVANCING
           ELSE DISPLAY "N" NO ADVANCING.
           IF A7 < -9
               DISPLAY "Y" NO ADVANCING
           ELSE DISPLAY "N" NO ADVANCING.
           IF A7 NOT > -9
               DISPLAY "Y" NO ADVANCING
           ELSE DISPLAY "N" NO ADVANCING.
           DISPLAY " 033".
           IF A7 = ZERO
               DISPLAY "Y" NO ADVANCING
           ELSE DISPLAY "N" NO ADVANCING.
           IF A7 < ZERO
               DISPLAY "Y" NO ADVANCING
           ELSE DISPLAY "N" NO ADVANCING.
           IF A7 NOT > ZERO
               DISPLAY "Y" NO ADVANCING
           ELSE DISPLAY "N" NO ADVANCING.
           DISPLAY " 034".
           IF A7 = A1 + A4
               DISPLAY "Y" NO ADVANCING
           ELSE DISPLAY "N" NO ADVANCING.
           IF A7 < A1 + A4
               DISPLAY "Y" NO ADVANCING
           ELSE DISPLAY "N" NO ADVANCING.
           IF A7 NOT > A1 + A4
               DISPLAY "Y" NO ADVANCING
           ELSE DISPLAY "N" NO ADVANCING.
           DISPLAY " 035".
           IF A8 = B1
               DISPLAY "Y" NO ADVANCING
           ELSE DISPLAY "N" NO ADVANCING.
           IF A8 < B1
               DISPLAY "Y" NO ADVANCING
           ELSE DISPLAY "N" NO ADVANCING.
           IF A8 NOT > B1
               DISPLAY "Y" NO ADVANCING
           ELSE DISPLAY "N" NO ADVANCING.
           DISPLAY " 036".
           IF A8 = B2
               DISPLAY "Y" NO ADVANCING
           ELSE DISPLAY "N" NO ADVANCING.
           IF A8 < B2
               DISPLAY "Y" NO ADVANCING
           ELSE DISPLAY "N" NO ADVANCING.
           IF A8 NOT > B2
               DISPLAY "Y" NO ADVANCING
           ELSE DISPLAY "N" NO ADVANCING.
           DISPLAY " 037".
           IF A8 = B3
               DISPLAY "Y" NO ADVANCING
           ELSE DISPLAY "N" NO ADVANCING.
           IF A8 < B3
               DISPLAY "Y" NO ADVANCING
           ELSE DISPLAY "N" NO ADVANCING.
           IF A8 NOT > B3
               DISPLAY "Y" NO ADVANCING
           ELSE DISPLAY "N" NO ADVANCING.
           DISPLAY " 038".
           IF A8 = 7
               DISPLAY "Y" NO ADVANCING
           ELSE DISPLAY "N" NO ADVANCING.
           IF A8 < 7
               DISPLAY "Y" NO ADVANCING
           ELSE DISPLAY "N" NO ADVANCING.
           IF A8 NOT > 7
               DISPLAY "Y" NO ADVANCING
           ELSE DISPLAY "N" NO ADVANCING.
           DISPLAY " 039".
           IF A8 = -9
               DISPLAY "Y" NO ADVANCING
           ELSE DISPLAY "N" NO ADVANCING.
           IF A8 < -9
               DISPLAY "Y" NO ADVANCING
           ELSE DISPLAY "N" NO ADVANCING.
           IF A8 NOT > -9
               DISPLAY "Y" NO ADVANCING
           ELSE DISPLAY "N" NO ADVANCING.
           DISPLAY " 040".
           IF A8 = ZERO
               DISPLAY "Y" NO ADVANCING
           ELSE DISPLAY "N" NO ADVANCING.
           IF A8 < ZERO
               DISPLAY "Y" NO ADVANCING
           ELSE DISPLAY "N" NO ADVANCING.
           IF A8 NOT > ZERO
               DISPLAY "Y" NO ADVANCING
           ELSE DISPLAY "N" NO ADVANCING.
           DISPLAY " 041".
           IF A8 = A1 + A4
               DISPLAY "Y" NO ADVANCING
           ELSE DISPLAY "N" NO ADVANCING.
           IF A8 < A1 + A4
               DISPLAY "Y" NO ADVANCING
           ELSE DISPLAY "N" NO ADVANCING.
           IF A8 NOT > A1 + A4
               DISPLAY "Y" NO ADVANCING
           ELSE DISPLAY "N" NO ADVANCING.
           DISPLAY " 042".
           IF A9 = B1
               DISPLAY "Y" NO ADVANCING
           ELSE DISPLAY "N" NO ADVANCING.
           IF A9 < B1
               DISPLAY "Y" NO ADVANCING
           ELSE DISPLAY "N" NO ADVANCING.
           IF A9 NOT > B1
               DISPLAY "Y" NO ADVANCING
           ELSE DISPLAY "N" NO ADVANCING.
           DISPLAY " 043".
           IF A9 = B2
               DISPLAY "Y" NO ADVANCING
           ELSE DISPLAY "N" NO ADVANCING.
           IF A9 < B2
               DISPLAY "Y" NO ADVANCING
           ELSE DISPLAY "N" NO ADVANCING.
           IF A9 NOT > B2
               DISPLAY "Y" NO ADVANCING
           ELSE DISPLAY "N" NO ADVANCING.
           DISPLAY " 044".
           IF A9 = B3
               DISPLAY "Y" NO ADVANCING
           ELSE DISPLAY "N" NO ADVANCING.
           IF A9 < B3
               DISPLAY "Y" NO ADVANCING
           ELSE DISPLAY "N" NO ADVANCING.
           IF A9 NOT > B3
               DISPLAY "Y" NO ADVANCING
           ELSE DISPLAY "N" NO ADVANCING.
           DISPLAY " 045".
           IF A9 = 7
               DISPLAY "Y" NO ADVANCING
           ELSE DISPLAY "N" NO ADVANCING.
           IF A9 < 7
               DISPLAY "Y" NO ADVANCING
           ELSE DISPLAY "N" NO ADVANCING.
           IF A9 NOT > 7
               DISPLAY "Y" NO ADVANCING
           ELSE DISPLAY "N" NO ADVANCING.
           DISPLAY " 046".
           IF A9 = -9
               DISPLAY "Y" NO ADVANCING
           ELSE DISPLAY "N" NO ADVANCING.
           IF A9 < -9
               DISPLAY "Y" NO ADVANCING
           ELSE DISPLAY "N" NO ADVANCING.
           IF A9 NOT > -9
               DISPLAY "Y" NO ADVANCING
           ELSE DISPLAY "N" NO ADVANCING.
           DISPLAY " 047".
           IF A9 = ZERO
               DISPLAY "Y" NO ADVANCING
           ELSE DISPLAY "N" NO ADVANCING.
           IF A9 < ZERO
               DISPLAY "Y" NO ADVANCING
           ELSE DISPLAY "N" NO ADVANCING.
           IF A9 NOT > ZERO
               DISPLAY "Y" NO ADVANCING
           ELSE DISPLAY "N" NO ADVANCING.
           DISPLAY " 048".
           IF A9 = A1 + A4
               DISPLAY "Y" NO ADVANCING
           ELSE DISPLAY "N" NO ADVANCING.
           IF A9 < A1 + A4
               DISPLAY "Y" NO ADVANCING
           ELSE DISPLAY "N" NO ADVANCING.
           IF A9 NOT > A1 + A4
               DISPLAY "Y" NO ADVANCING
           ELSE DISPLAY "N" NO ADVANCING.
           DISPLAY " 049".
           IF B3 = B1
               DISPLAY "Y" NO ADVANCING
           ELSE DISPLAY "N" NO ADVANCING.
           IF B3 < B1
               DISPLAY "Y" NO ADVANCING
           ELSE DISPLAY "N" NO ADVANCING.
           IF B3 NOT > B1
               DISPLAY "Y" NO ADVANCING
           ELSE DISPLAY "N" NO ADVANCING.
           DISPLAY " 050".
           IF B3 = B2
               DISPLAY "Y" NO ADVANCING
           ELSE DISPLAY "N" NO ADVANCING.
           IF B3 < B2
               DISPLAY "Y" NO ADVANCING
           ELSE DISPLAY "N" NO ADVANCING.
           IF B3 NOT > B2
               DISPLAY "Y" NO ADVANCING
           ELSE DISPLAY "N" NO ADVANCING.
           DISPLAY " 051".
           IF B3 = B3
               DISPLAY "Y" NO ADVANCING
           ELSE DISPLAY "N" NO ADVANCING.
           IF B3 < B3
               DISPLAY "Y" NO ADVANCING
           ELSE DISPLAY "N" NO ADVANCING.
           IF B3 NOT > B3
               DISPLAY "Y" NO ADVANCING
           ELSE DISPLAY "N" NO ADVANCING.
           DISPLAY " 052".
           IF B3 = 7
               DISPLAY "Y" NO ADVANCING
           ELSE DISPLAY "N" NO ADVANCING.
           IF B3 < 7
               DISPLAY "Y" NO ADVANCING
           ELSE DISPLAY "N" NO ADVANCING.
           IF B3 NOT > 7
               DISPLAY "Y" NO ADVANCING
           ELSE DISPLAY "N" NO ADVANCING.
           DISPLAY " 053".
           IF B3 = -9
               DISPLAY "Y" NO ADVANCING
           ELSE DISPLAY "N" NO ADVANCING.
           IF B3 < -9
               DISPLAY "Y" NO ADVANCING
           ELSE DISPLAY "N" NO ADVANCING.
           IF B3 NOT > -9
               DISPLAY "Y" NO ADVANCING
           ELSE DISPLAY "N" NO ADVANCING.
           DISPLAY " 054".
           IF B3 = ZERO
               DISPLAY "Y" NO ADVANCING
           ELSE DISPLAY "N" NO ADVANCING.
           IF B3 < ZERO
               DISPLAY "Y" NO ADVANCING
           ELSE DISPLAY "N" NO ADVANCING.
           IF B3 NOT > ZERO
               DISPLAY "Y" NO ADVANCING
           ELSE DISPLAY "N" NO ADVANCING.
           DISPLAY " 055".
           IF B3 = A1 + A4
               DISPLAY "Y" NO ADVANCING
           ELSE DISPLAY "N" NO ADVANCING.
           IF B3 < A1 + A4
               DISPLAY "Y" NO ADVANCING
           ELSE DISPLAY "N" NO ADVANCING.
           IF B3 NOT > A1 + A4
               DISPLAY "Y" NO ADVANCING
           ELSE DISPLAY "N" NO ADVANCING.
           DISPLAY " 056".
           IF A1 IS POSITIVE
               DISPLAY "Y" NO ADVANCING
           ELSE DISPLAY "N" NO ADVANCING.
           IF A1 IS NEGATIVE
               DISPLAY "Y" NO ADVANCING
           ELSE DISPLAY "N" NO ADVANCING.
           IF A1 IS ZERO
               DISPLAY "Y" NO ADVANCING
           ELSE DISPLAY "N" NO ADVANCING.
           IF A1 IS NOT ZERO
               DISPLAY "Y" NO ADVANCING
           ELSE DISPLAY "N" NO ADVANCING.
           DISPLAY " 057".
           IF A4 IS POSITIVE
               DISPLAY "Y" NO ADVANCING
           ELSE DISPLAY "N" NO ADVANCING.
           IF A4 IS NEGATIVE
               DISPLAY "Y" NO ADVANCING
           ELSE DISPLAY "N" NO ADVANCING.
           IF A4 IS ZERO
               DISPLAY "Y" NO ADVANCING
           ELSE DISPLAY "N" NO ADVANCING.
           IF A4 IS NOT ZERO
               DISPLAY "Y" NO ADVANCING
           ELSE DISPLAY "N" NO ADVANCING.
           DISPLAY " 058".
           IF A5 IS POSITIVE
               DISPLAY "Y" NO ADVANCING
           ELSE DISPLAY "N" NO ADVANCING.
           IF A5 IS NEGATIVE
               DISPLAY "Y" NO ADVANCING
           ELSE DISPLAY "N" NO ADVANCING.
           IF A5 IS ZERO
               DISPLAY "Y" NO ADVANCING
           ELSE DISPLAY "N" NO ADVANCING.
           IF A5 IS NOT ZERO
               DISPLAY "Y" NO ADVANCING
           ELSE DISPLAY "N" NO ADVANCING.
           DISPLAY " 059".
           IF A8 IS POSITIVE
               DISPLAY "Y" NO ADVANCING
           ELSE DISPLAY "N" NO ADVANCING.
           IF A8 IS NEGATIVE
               DISPLAY "Y" NO ADVANCING
           ELSE DISPLAY "N" NO ADVANCING.
           IF A8 IS ZERO
               DISPLAY "Y" NO ADVANCING
           ELSE DISPLAY "N" NO ADVANCING.
           IF A8 IS NOT ZERO
               DISPLAY "Y" NO ADVANCING
           ELSE DISPLAY "N" NO ADVANCING.
           DISPLAY " 060".
           IF B3 IS POSITIVE
               DISPLAY "Y" NO ADVANCING
           ELSE DISPLAY "N" NO ADVANCING.
           IF B3 IS NEGATIVE
               DISPLAY "Y" NO ADVANCING
           ELSE DISPLAY "N" NO ADVANCING.
           IF B3 IS ZERO
               DISPLAY "Y" NO ADVANCING
           ELSE DISPLAY "N" NO ADVANCING.
           IF B3 IS NOT ZERO
               DISPLAY "Y" NO ADVANCING
           ELSE DISPLAY "N" NO ADVANCING.
           DISPLAY " 061".
           IF A1 - 7 IS POSITIVE
               DISPLAY "Y" NO ADVANCING
           ELSE DISPLAY "N" NO ADVANCING.
           IF A1 - 7 IS NEGATIVE
               DISPLAY "Y" NO ADVANCING
           ELSE DISPLAY "N" NO ADVANCING.
           IF A1 - 7 IS ZERO
               DISPLAY "Y" NO ADVANCING
           ELSE DISPLAY "N" NO ADVANCING.
           IF A1 - 7 IS NOT ZERO
               DISPLAY "Y" NO ADVANCING
           ELSE DISPLAY "N" NO ADVANCING.
           DISPLAY " 062".
           IF A4 + A7 IS POSITIVE
               DISPLAY "Y" NO ADVANCING
           ELSE DISPLAY "N" NO ADVANCING.
           IF A4 + A7 IS NEGATIVE
               DISPLAY "Y" NO ADVANCING
           ELSE DISPLAY "N" NO ADVANCING.
           IF A4 + A7 IS ZERO
               DISPLAY "Y" NO ADVANCING
           ELSE DISPLAY "N" NO ADVANCING.
           IF A4 + A7 IS NOT ZERO
               DISPLAY "Y" NO ADVANCING
           ELSE DISPLAY "N" NO ADVANCING.
           DISPLAY " 063".
           STOP RUN.
