       IDENTIFICATION DIVISION.
       PROGRAM-ID. COMPARE-TEXTS.
       DATA DIVISION.
       WORKING-STORAGE SECTION.
       01 T1 PIC X(5) VALUE "ABC".
       01 T2 PIC X(3) VALUE "ABC".
       01 T3 PIC A(4) VALUE "abcd".
       01 T4 PIC X(4) VALUE "0123".
       01 T5 PIC X(3) VALUE SPACES.
       01 T6 PIC X(2) VALUE HIGH-VALUES.
       01 N1 PIC 9(4) VALUE 123.
       01 N1-X REDEFINES N1 PIC X(4).
       01 G1.
           05 G1-A PIC X(2) VALUE "AB".
           05 G1-N PIC 9(3) VALUE 42.
       PROCEDURE DIVISION.
       CASES.
           IF T1 = T2
               DISPLAY "Y" NO ADVANCING
           ELSE DISPLAY "N" NO ADVANCING.
           IF T1 < T2
               DISPLAY "Y" NO ADVANCING
           ELSE DISPLAY "N" NO ADVANCING.
           IF T1 NOT > T2
               DISPLAY "Y" NO ADVANCING
           ELSE DISPLAY "N" NO ADVANCING.
           DISPLAY " 001".
           IF T1 = T4
               DISPLAY "Y" NO ADVANCING
           ELSE DISPLAY "N" NO ADVANCING.
           IF T1 < T4
               DISPLAY "Y" NO ADVANCING
           ELSE DISPLAY "N" NO ADVANCING.
           IF T1 NOT > T4
               DISPLAY "Y" NO ADVANCING
           ELSE DISPLAY "N" NO ADVANCING.
           DISPLAY " 002".
           IF T1 = G1
               DISPLAY "Y" NO ADVANCING
           ELSE DISPLAY "N" NO ADVANCING.
           IF T1 < G1
               DISPLAY "Y" NO ADVANCING
           ELSE DISPLAY "N" NO ADVANCING.
           IF T1 NOT > G1
               DISPLAY "Y" NO ADVANCING
           ELSE DISPLAY "N" NO ADVANCING.
           DISPLAY " 003".
           IF T1 = "ABC "
               DISPLAY "Y" NO ADVANCING
           ELSE DISPLAY "N" NO ADVANCING.
           IF T1 < "ABC "
               DISPLAY "Y" NO ADVANCING
           ELSE DISPLAY "N" NO ADVANCING.
           IF T1 NOT > "ABC "
               DISPLAY "Y" NO ADVANCING
           ELSE DISPLAY "N" NO ADVANCING.
           DISPLAY " 004".
           IF T1 = "0123"
               DISPLAY "Y" NO ADVANCING
           ELSE DISPLAY "N" NO ADVANCING.
           IF T1 < "0123"
               DISPLAY "Y" NO ADVANCING
           ELSE DISPLAY "N" NO ADVANCING.
           IF T1 NOT > "0123"
               DISPLAY "Y" NO ADVANCING
           ELSE DISPLAY "N" NO ADVANCING.
           DISPLAY " 005".
           IF T1 = SPACES
               DISPLAY "Y" NO ADVANCING
           ELSE DISPLAY "N" NO ADVANCING.
           IF T1 < SPACES
               DISPLAY "Y" NO ADVANCING
           ELSE DISPLAY "N" NO ADVANCING.
           IF T1 NOT > SPACES
               DISPLAY "Y" NO ADVANCING
           ELSE DISPLAY "N" NO ADVANCING.
           DISPLAY " 006".
           IF T1 = ZEROS
               DISPLAY "Y" NO ADVANCING
           ELSE DISPLAY "N" NO ADVANCING.
           IF T1 < ZEROS
               DISPLAY "Y" NO ADVANCING
           ELSE DISPLAY "N" NO ADVANCING.
           IF T1 NOT > ZEROS
               DISPLAY "Y" NO ADVANCING
           ELSE DISPLAY "N" NO ADVANCING.
           DISPLAY " 007".
           IF T1 = HIGH-VALUES
               DISPLAY "Y" NO ADVANCING
           ELSE DISPLAY "N" NO ADVANCING.
           IF T1 < HIGH-VALUES
               DISPLAY "Y" NO ADVANCING
           ELSE DISPLAY "N" NO ADVANCING.
           IF T1 NOT > HIGH-VALUES
               DISPLAY "Y" NO ADVANCING
           ELSE DISPLAY "N" NO ADVANCING.
           DISPLAY " 008".
           IF T1 = T1 (1 : 3)
               DISPLAY "Y" NO ADVANCING
           ELSE DISPLAY "N" NO ADVANCING.
           IF T1 < T1 (1 : 3)
               DISPLAY "Y" NO ADVANCING
           ELSE DISPLAY "N" NO ADVANCING.
           IF T1 NOT > T1 (1 : 3)
               DISPLAY "Y" NO ADVANCING
           ELSE DISPLAY "N" NO ADVANCING.
           DISPLAY " 009".
           IF T2 = T4
               DISPLAY "Y" NO ADVANCING
           ELSE DISPLAY "N" NO ADVANCING.
           IF T2 < T4
               DISPLAY "Y" NO ADVANCING
           ELSE DISPLAY "N" NO ADVANCING.
           IF T2 NOT > T4
               DISPLAY "Y" NO ADVANCING
           ELSE DISPLAY "N" NO ADVANCING.
           DISPLAY " 010".
           IF T2 = G1
               DISPLAY "Y" NO ADVANCING
           ELSE DISPLAY "N" NO ADVANCING.
           IF T2 < G1
               DISPLAY "Y" NO ADVANCING
           ELSE DISPLAY "N" NO ADVANCING.
           IF T2 NOT > G1
               DISPLAY "Y" NO ADVANCING
           ELSE DISPLAY "N" NO ADVANCING.
           DISPLAY " 011".
           IF T2 = "ABC "
               DISPLAY "Y" NO ADVANCING
           ELSE DISPLAY "N" NO ADVANCING.
           IF T2 < "ABC "
               DISPLAY "Y" NO ADVANCING
           ELSE DISPLAY "N" NO ADVANCING.
           IF T2 NOT > "ABC "
               DISPLAY "Y" NO ADVANCING
           ELSE DISPLAY "N" NO ADVANCING.
           DISPLAY " 012".
           IF T2 = "0123"
               DISPLAY "Y" NO ADVANCING
           ELSE DISPLAY "N" NO ADVANCING.
           IF T2 < "0123"
               DISPLAY "Y" NO ADVANCING
           ELSE DISPLAY "N" NO ADVANCING.
           IF T2 NOT > "0123"
               DISPLAY "Y" NO ADVANCING
           ELSE DISPLAY "N" NO ADVANCING.
           DISPLAY " 013".
           IF T2 = SPACES
               DISPLAY "Y" NO ADVANCING
           ELSE DISPLAY "N" NO ADVANCING.
           IF T2 < SPACES
               DISPLAY "Y" NO ADVANCING
           ELSE DISPLAY "N" NO ADVANCING.
           IF T2 NOT > SPACES
               DISPLAY "Y" NO ADVANCING
           ELSE DISPLAY "N" NO ADVANCING.
           DISPLAY " 014".
           IF T2 = ZEROS
               DISPLAY "Y" NO ADVANCING
           ELSE DISPLAY "N" NO ADVANCING.
           IF T2 < ZEROS
               DISPLAY "Y" NO ADVANCING
           ELSE DISPLAY "N" NO ADVANCING.
           IF T2 NOT > ZEROS
               DISPLAY "Y" NO ADVANCING
           ELSE DISPLAY "N" NO ADVANCING.
           DISPLAY " 015".
           IF T2 = HIGH-VALUES
               DISPLAY "Y" NO ADVANCING
           ELSE DISPLAY "N" NO ADVANCING.
           IF T2 < HIGH-VALUES
               DISPLAY "Y" NO ADVANCING
           ELSE DISPLAY "N" NO ADVANCING.
           IF T2 NOT > HIGH-VALUES
               DISPLAY "Y" NO ADVANCING
           ELSE DISPLAY "N" NO ADVANCING.
           DISPLAY " 016".
           IF T2 = T1 (1 : 3)
               DISPLAY "Y" NO ADVANCING
           ELSE DISPLAY "N" NO ADVANCING.
           IF T2 < T1 (1 : 3)
               DISPLAY "Y" NO ADVANCING
           ELSE DISPLAY "N" NO ADVANCING.
           IF T2 NOT > T1 (1 : 3)
               DISPLAY "Y" NO ADVANCING
           ELSE DISPLAY "N" NO ADVANCING.
           DISPLAY " 017".
           IF T3 = T2
               DISPLAY "Y" NO ADVANCING
           ELSE DISPLAY "N" NO ADVANCING.
           IF T3 < T2
               DISPLAY "Y" NO ADVANCING
           ELSE DISPLAY "N" NO ADVANCING.
           IF T3 NOT > T2
               DISPLAY "Y" NO ADVANCING
           ELSE DISPLAY "N" NO ADVANCING.
           DISPLAY " 018".
           IF T3 = T4
               DISPLAY "Y" NO ADVANCING
           ELSE DISPLAY "N" NO ADVANCING.
           IF T3 < T4
               DISPLAY "Y" NO ADVANCING
           ELSE DISPLAY "N" NO ADVANCING.
           IF T3 NOT > T4
               DISPLAY "Y" NO ADVANCING
           ELSE DISPLAY "N" NO ADVANCING.
           DISPLAY " 019".
           IF T3 = G1
               DISPLAY "Y" NO ADVANCING
           ELSE DISPLAY "N" NO ADVANCING.
           IF T3 < G1
               DISPLAY "Y" NO ADVANCING
           ELSE DISPLAY "N" NO ADVANCING.
           IF T3 NOT > G1
               DISPLAY "Y" NO ADVANCING
           ELSE DISPLAY "N" NO ADVANCING.
           DISPLAY " 020".
           IF T3 = "ABC "
               DISPLAY "Y" NO ADVANCING
           ELSE DISPLAY "N" NO ADVANCING.
           IF T3 < "ABC "
               DISPLAY "Y" NO ADVANCING
           ELSE DISPLAY "N" NO ADVANCING.
           IF T3 NOT > "ABC "
               DISPLAY "Y" NO ADVANCING
           ELSE DISPLAY "N" NO ADVANCING.
           DISPLAY " 021".
           IF T3 = "0123"
               DISPLAY "Y" NO ADVANCING
           ELSE DISPLAY "N" NO ADVANCING.
           IF T3 < "0123"
               DISPLAY "Y" NO ADVANCING
           ELSE DISPLAY "N" NO ADVANCING.
           IF T3 NOT > "0123"
               DISPLAY "Y" NO ADVANCING
           ELSE DISPLAY "N" NO ADVANCING.
           DISPLAY " 022".
           IF T3 = SPACES
               DISPLAY "Y" NO ADVANCING
           ELSE DISPLAY "N" NO ADVANCING.
           IF T3 < SPACES
               DISPLAY "Y" NO ADVANCING
           ELSE DISPLAY "N" NO ADVANCING.
           IF T3 NOT > SPACES
               DISPLAY "Y" NO ADVANCING
           ELSE DISPLAY "N" NO ADVANCING.
           DISPLAY " 023".
           IF T3 = ZEROS
               DISPLAY "Y" NO ADVANCING
           ELSE DISPLAY "N" NO ADVANCING.
           IF T3 < ZEROS
               DISPLAY "Y" NO ADVANCING
           ELSE DISPLAY "N" NO ADVANCING.
           IF T3 NOT > ZEROS
               DISPLAY "Y" NO ADVANCING
           ELSE DISPLAY "N" NO ADVANCING.
           DISPLAY " 024".
           IF T3 = HIGH-VALUES
               DISPLAY "Y" NO ADVANCING
           ELSE DISPLAY "N" NO ADVANCING.
           IF T3 < HIGH-VALUES
               DISPLAY "Y" NO ADVANCING
           ELSE DISPLAY "N" NO ADVANCING.
           IF T3 NOT > HIGH-VALUES
               DISPLAY "Y" NO ADVANCING
           ELSE DISPLAY "N" NO ADVANCING.
           DISPLAY " 025".
           IF T3 = T1 (1 : 3)
               DISPLAY "Y" NO ADVANCING
           ELSE DISPLAY "N" NO ADVANCING.
           IF T3 < T1 (1 : 3)
               DISPLAY "Y" NO ADVANCING
           ELSE DISPLAY "N" NO ADVANCING.
           IF T3 NOT > T1 (1 : 3)
               DISPLAY "Y" NO ADVANCING
           ELSE DISPLAY "N" NO ADVANCING.
           DISPLAY " 026".
           IF T4 = T2
               DISPLAY "Y" NO ADVANCING
           ELSE DISPLAY "N" NO ADVANCING.
           IF T4 < T2
               DISPLAY "Y" NO ADVANCING
           ELSE DISPLAY "N" NO ADVANCING.
           IF T4 NOT > T2
               DISPLAY "Y" NO ADVANCING
           ELSE DISPLAY "N" NO ADVANCING.
           DISPLAY " 027".
           IF T4 = G1
               DISPLAY "Y" NO ADVANCING
           ELSE DISPLAY "N" NO ADVANCING.
           IF T4 < G1
               DISPLAY "Y" NO ADVANCING
           ELSE DISPLAY "N" NO ADVANCING.
           IF T4 NOT > G1
               DISPLAY "Y" NO ADVANCING
           ELSE DISPLAY "N" NO ADVANCING.
           DISPLAY " 028".
           IF T4 = "ABC "
               DISPLAY "Y" NO ADVANCING
           ELSE DISPLAY "N" NO ADVANCING.
           IF T4 < "ABC "
               DISPLAY "Y" NO ADVANCING
           ELSE DISPLAY "N" NO ADVANCING.
           IF T4 NOT > "ABC "
               DISPLAY "Y" NO ADVANCING
           ELSE DISPLAY "N" NO ADVANCING.
           DISPLAY " 029".
           IF T4 = "0123"
               DISPLAY "Y" NO ADVANCING
           ELSE DISPLAY "N" NO ADVANCING.
           IF T4 < "0123"
               DISPLAY "Y" NO ADVANCING
           ELSE DISPLAY "N" NO ADVANCING.
           IF T4 NOT > "0123"
               DISPLAY "Y" NO ADVANCING
           ELSE DISPLAY "N" NO ADVANCING.
           DISPLAY " 030".
           IF T4 = SPACES
               DISPLAY "Y" NO ADVANCING
           ELSE DISPLAY "N" NO ADVANCING.
           IF T4 < SPACES
               DISPLAY "Y" NO ADVANCING
           ELSE DISPLAY "N" NO ADVANCING.
           IF T4 NOT > SPACES
               DISPLAY "Y" NO ADVANCING
           ELSE DISPLAY "N" NO ADVANCING.
           DISPLAY " 031".
           IF T4 = ZEROS
               DISPLAY "Y" NO ADVANCING
           ELSE DISPLAY "N" NO ADVANCING.
           IF T4 < ZEROS
               DISPLAY "Y" NO ADVANCING
           ELSE DISPLAY "N" NO ADVANCING.
           IF T4 NOT > ZEROS
               DISPLAY "Y" NO ADVANCING
           ELSE DISPLAY "N" NO ADVANCING.
           DISPLAY " 032".
           IF T4 = HIGH-VALUES
               DISPLAY "Y" NO ADVANCING
           ELSE DISPLAY "N" NO ADVANCING.
           IF T4 < HIGH-VALUES
               DISPLAY "Y" NO ADVANCING
           ELSE DISPLAY "N" NO ADVANCING.
           IF T4 NOT > HIGH-VALUES
               DISPLAY "Y" NO ADVANCING
           ELSE DISPLAY "N" NO ADVANCING.
           DISPLAY " 033".
           IF T4 = T1 (1 : 3)
               DISPLAY "Y" NO ADVANCING
           ELSE DISPLAY "N" NO ADVANCING.
           IF T4 < T1 (1 : 3)
               DISPLAY "Y" NO ADVANCING
           ELSE DISPLAY "N" NO ADVANCING.
           IF T4 NOT > T1 (1 : 3)
               DISPLAY "Y" NO ADVANCING
           ELSE DISPLAY "N" NO ADVANCING.
           DISPLAY " 034".
           IF T5 = T2
               DISPLAY "Y" NO ADVANCING
           ELSE DISPLAY "N" NO ADVANCING.
           IF T5 < T2
               DISPLAY "Y" NO ADVANCING
           ELSE DISPLAY "N" NO ADVANCING.
           IF T5 NOT > T2
               DISPLAY "Y" NO ADVANCING
           ELSE DISPLAY "N" NO ADVANCING.
           DISPLAY " 035".
           IF T5 = T4
               DISPLAY "Y" NO ADVANCING
           ELSE DISPLAY "N" NO ADVANCING.
           IF T5 < T4
               DISPLAY "Y" NO ADVANCING
           ELSE DISPLAY "N" NO ADVANCING.
           IF T5 NOT > T4
               DISPLAY "Y" NO ADVANCING
           ELSE DISPLAY "N" NO ADVANCING.
           DISPLAY " 036".
           IF T5 = G1
               DISPLAY "Y" NO ADVANCING
           ELSE DISPLAY "N" NO ADVANCING.
           IF T5 < G1
               DISPLAY "Y" NO ADVANCING
           ELSE DISPLAY "N" NO ADVANCING.
           IF T5 NOT > G1
               DISPLAY "Y" NO ADVANCING
           ELSE DISPLAY "N" NO ADVANCING.
           DISPLAY " 037".
           IF T5 = "ABC "
               DISPLAY "Y" NO ADVANCING
           ELSE DISPLAY "N" NO ADVANCING.
           IF T5 < "ABC "
               DISPLAY "Y" NO ADVANCING
           ELSE DISPLAY "N" NO ADVANCING.
           IF T5 NOT > "ABC "
               DISPLAY "Y" NO ADVANCING
           ELSE DISPLAY "N" NO ADVANCING.
           DISPLAY " 038".
           IF T5 = "0123"
               DISPLAY "Y" NO ADVANCING
           ELSE DISPLAY "N" NO ADVANCING.
           IF T5 < "0123"
               DISPLAY "Y" NO ADVANCING
           ELSE DISPLAY "N" NO ADVANCING.
           IF T5 NOT > "0123"
               DISPLAY "Y" NO ADVANCING
           ELSE DISPLAY "N" NO ADVANCING.
           DISPLAY " 039".
           IF T5 = SPACES
               DISPLAY "Y" NO ADVANCING
           ELSE DISPLAY "N" NO ADVANCING.
           IF T5 < SPACES
               DISPLAY "Y" NO ADVANCING
           ELSE DISPLAY "N" NO ADVANCING.
           IF T5 NOT > SPACES
               DISPLAY "Y" NO ADVANCING
           ELSE DISPLAY "N" NO ADVANCING.
           DISPLAY " 040".
           IF T5 = ZEROS
               DISPLAY "Y" NO ADVANCING
           ELSE DISPLAY "N" NO ADVANCING.
           IF T5 < ZEROS
               DISPLAY "Y" NO ADVANCING
           ELSE DISPLAY "N" NO ADVANCING.
           IF T5 NOT > ZEROS
               DISPLAY "Y" NO ADVANCING
           ELSE DISPLAY "N" NO ADVANCING.
           DISPLAY " 041".
           IF T5 = HIGH-VALUES
               DISPLAY "Y" NO ADVANCING
           ELSE DISPLAY "N" NO ADVANCING.
           IF T5 < HIGH-VALUES
               DISPLAY "Y" NO ADVANCING
           ELSE DISPLAY "N" NO ADVANCING.
           IF T5 NOT > HIGH-VALUES
               DISPLAY "Y" NO ADVANCING
           ELSE DISPLAY "N" NO ADVANCING.
           DISPLAY " 042".
           IF T5 = T1 (1 : 3)
               DISPLAY "Y" NO ADVANCING
           ELSE DISPLAY "N" NO ADVANCING.
           IF T5 < T1 (1 : 3)
               DISPLAY "Y" NO ADVANCING
           ELSE DISPLAY "N" NO ADVANCING.
           IF T5 NOT > T1 (1 : 3)
               DISPLAY "Y" NO ADVANCING
           ELSE DISPLAY "N" NO ADVANCING.
           DISPLAY " 043".
           IF T6 = T2
               DISPLAY "Y" NO ADVANCING
           ELSE DISPLAY "N" NO ADVANCING.
           IF T6 < T2
               DISPLAY "Y" NO ADVANCING
           ELSE DISPLAY "N" NO ADVANCING.
           IF T6 NOT > T2
               DISPLAY "Y" NO ADVANCING
           ELSE DISPLAY "N" NO ADVANCING.
           DISPLAY " 044".
           IF T6 = T4
               DISPLAY "Y" NO ADVANCING
           ELSE DISPLAY "N" NO ADVANCING.
           IF T6 < T4
               DISPLAY "Y" NO ADVANCING
           ELSE DISPLAY "N" NO ADVANCING.
           IF T6 NOT > T4
               DISPLAY "Y" NO ADVANCING
           ELSE DISPLAY "N" NO ADVANCING.
           DISPLAY " 045".
           IF T6 = G1
               DISPLAY "Y" NO ADVANCING
           ELSE DISPLAY "N" NO ADVANCING.
           IF T6 < G1
               DISPLAY "Y" NO ADVANCING
           ELSE DISPLAY "N" NO ADVANCING.
           IF T6 NOT > G1
               DISPLAY "Y" NO ADVANCING
           ELSE DISPLAY "N" NO ADVANCING.
           DISPLAY " 046".
           IF T6 = "ABC "
               DISPLAY "Y" NO ADVANCING
           ELSE DISPLAY "N" NO ADVANCING.
           IF T6 < "ABC "
               DISPLAY "Y" NO ADVANCING
           ELSE DISPLAY "N" NO ADVANCING.
           IF T6 NOT > "ABC "
               DISPLAY "Y" NO ADVANCING
           ELSE DISPLAY "N" NO ADVANCING.
           DISPLAY " 047".
           IF T6 = "0123"
               DISPLAY "Y" NO ADVANCING
           ELSE DISPLAY "N" NO ADVANCING.
           IF T6 < "0123"
               DISPLAY "Y" NO ADVANCING
           ELSE DISPLAY "N" NO ADVANCING.
           IF T6 NOT > "0123"
               DISPLAY "Y" NO ADVANCING
           ELSE DISPLAY "N" NO ADVANCING.
           DISPLAY " 048".
           IF T6 = SPACES
               DISPLAY "Y" NO ADVANCING
           ELSE DISPLAY "N" NO ADVANCING.
           IF T6 < SPACES
               DISPLAY "Y" NO ADVANCING
           ELSE DISPLAY "N" NO ADVANCING.
           IF T6 NOT > SPACES
               DISPLAY "Y" NO ADVANCING
           ELSE DISPLAY "N" NO ADVANCING.
           DISPLAY " 049".
           IF T6 = ZEROS
               DISPLAY "Y" NO ADVANCING
           ELSE DISPLAY "N" NO ADVANCING.
           IF T6 < ZEROS
               DISPLAY "Y" NO ADVANCING
           ELSE DISPLAY "N" NO ADVANCING.
           IF T6 NOT > ZEROS
               DISPLAY "Y" NO ADVANCING
           ELSE DISPLAY "N" NO ADVANCING.
           DISPLAY " 050".
           IF T6 = HIGH-VALUES
               DISPLAY "Y" NO ADVANCING
           ELSE DISPLAY "N" NO ADVANCING.
           IF T6 < HIGH-VALUES
               DISPLAY "Y" NO ADVANCING
           ELSE DISPLAY "N" NO ADVANCING.
           IF T6 NOT > HIGH-VALUES
               DISPLAY "Y" NO ADVANCING
           ELSE DISPLAY "N" NO ADVANCING.
           DISPLAY " 051".
           IF T6 = T1 (1 : 3)
               DISPLAY "Y" NO ADVANCING
           ELSE DISPLAY "N" NO ADVANCING.
           IF T6 < T1 (1 : 3)
               DISPLAY "Y" NO ADVANCING
           ELSE DISPLAY "N" NO ADVANCING.
           IF T6 NOT > T1 (1 : 3)
               DISPLAY "Y" NO ADVANCING
           ELSE DISPLAY "N" NO ADVANCING.
           DISPLAY " 052".
           IF G1 = T2
               DISPLAY "Y" NO ADVANCING
           ELSE DISPLAY "N" NO ADVANCING.
           IF G1 < T2
               DISPLAY "Y" NO ADVANCING
           ELSE DISPLAY "N" NO ADVANCING.
           IF G1 NOT > T2
               DISPLAY "Y" NO ADVANCING
           ELSE DISPLAY "N" NO ADVANCING.
           DISPLAY " 053".
           IF G1 = T4
               DISPLAY "Y" NO ADVANCING
           ELSE DISPLAY "N" NO ADVANCING.
           IF G1 < T4
               DISPLAY "Y" NO ADVANCING
           ELSE DISPLAY "N" NO ADVANCING.
           IF G1 NOT > T4
               DISPLAY "Y" NO ADVANCING
           ELSE DISPLAY "N" NO ADVANCING.
           DISPLAY " 054".
           IF G1 = "ABC "
               DISPLAY "Y" NO ADVANCING
           ELSE DISPLAY "N" NO ADVANCING.
           IF G1 < "ABC "
               DISPLAY "Y" NO ADVANCING
           ELSE DISPLAY "N" NO ADVANCING.
           IF G1 NOT > "ABC "
               DISPLAY "Y" NO ADVANCING
           ELSE DISPLAY "N" NO ADVANCING.
           DISPLAY " 055".
           IF G1 = "0123"
               DISPLAY "Y" NO ADVANCING
           ELSE DISPLAY "N" NO ADVANCING.
           IF G1 < "0123"
               DISPLAY "Y" NO ADVANCING
           ELSE DISPLAY "N" NO ADVANCING.
           IF G1 NOT > "0123"
               DISPLAY "Y" NO ADVANCING
           ELSE DISPLAY "N" NO ADVANCING.
           DISPLAY " 056".
           IF G1 = SPACES
               DISPLAY "Y" NO ADVANCING
           ELSE DISPLAY "N" NO ADVANCING.
           IF G1 < SPACES
               DISPLAY "Y" NO ADVANCING
           ELSE DISPLAY "N" NO ADVANCING.
           IF G1 NOT > SPACES
               DISPLAY "Y" NO ADVANCING
           ELSE DISPLAY "N" NO ADVANCING.
           DISPLAY " 057".
           IF G1 = ZEROS
               DISPLAY "Y" NO ADVANCING
           ELSE DISPLAY "N" NO ADVANCING.
           IF G1 < ZEROS
               DISPLAY "Y" NO ADVANCING
           ELSE DISPLAY "N" NO ADVANCING.
           IF G1 NOT > ZEROS
               DISPLAY "Y" NO ADVANCING
           ELSE DISPLAY "N" NO ADVANCING.
           DISPLAY " 058".
           IF G1 = HIGH-VALUES
               DISPLAY "Y" NO ADVANCING
           ELSE DISPLAY "N" NO ADVANCING.
           IF G1 < HIGH-VALUES
               DISPLAY "Y" NO ADVANCING
           ELSE DISPLAY "N" NO ADVANCING.
           IF G1 NOT > HIGH-VALUES
               DISPLAY "Y" NO ADVANCING
           ELSE DISPLAY "N" NO ADVANCING.
           DISPLAY " 059".
           IF G1 = T1 (1 : 3)
               DISPLAY "Y" NO ADVANCING
           ELSE DISPLAY "N" NO ADVANCING.
           IF G1 < T1 (1 : 3)
               DISPLAY "Y" NO ADVANCING
           ELSE DISPLAY "N" NO ADVANCING.
           IF G1 NOT > T1 (1 : 3)
               DISPLAY "Y" NO ADVANCING
           ELSE DISPLAY "N" NO ADVANCING.
           DISPLAY " 060".
           IF N1 = T2
               DISPLAY "Y" NO ADVANCING
           ELSE DISPLAY "N" NO ADVANCING.
           IF N1 < T2
               DISPLAY "Y" NO ADVANCING
           ELSE DISPLAY "N" NO ADVANCING.
           IF N1 NOT > T2
               DISPLAY "Y" NO ADVANCING
           ELSE DISPLAY "N" NO ADVANCING.
           DISPLAY " 061".
           IF N1 = T4
               DISPLAY "Y" NO ADVANCING
           ELSE DISPLAY "N" NO ADVANCING.
           IF N1 < T4
               DISPLAY "Y" NO ADVANCING
           ELSE DISPLAY "N" NO ADVANCING.
           IF N1 NOT > T4
               DISPLAY "Y" NO ADVANCING
           ELSE DISPLAY "N" NO ADVANCING.
           DISPLAY " 062".
           IF N1 = G1
               DISPLAY "Y" NO ADVANCING
           ELSE DISPLAY "N" NO ADVANCING.
           IF N1 < G1
               DISPLAY "Y" NO ADVANCING
           ELSE DISPLAY "N" NO ADVANCING.
           IF N1 NOT > G1
               DISPLAY "Y" NO ADVANCING
           ELSE DISPLAY "N" NO ADVANCING.
           DISPLAY " 063".
           IF N1 = "ABC "
               DISPLAY "Y" NO ADVANCING
           ELSE DISPLAY "N" NO ADVANCING.
           IF N1 < "ABC "
               DISPLAY "Y" NO ADVANCING
           ELSE DISPLAY "N" NO ADVANCING.
           IF N1 NOT > "ABC "
               DISPLAY "Y" NO ADVANCING
           ELSE DISPLAY "N" NO ADVANCING.
           DISPLAY " 064".
           IF N1 = "0123"
               DISPLAY "Y" NO ADVANCING
           ELSE DISPLAY "N" NO ADVANCING.
           IF N1 < "0123"
               DISPLAY "Y" NO ADVANCING
           ELSE DISPLAY "N" NO ADVANCING.
           IF N1 NOT > "0123"
               DISPLAY "Y" NO ADVANCING
           ELSE DISPLAY "N" NO ADVANCING.
           DISPLAY " 065".
           IF N1 = ZEROS
               DISPLAY "Y" NO ADVANCING
           ELSE DISPLAY "N" NO ADVANCING.
           IF N1 < ZEROS
               DISPLAY "Y" NO ADVANCING
           ELSE DISPLAY "N" NO ADVANCING.
           IF N1 NOT > ZEROS
               DISPLAY "Y" NO ADVANCING
           ELSE DISPLAY "N" NO ADVANCING.
           DISPLAY " 066".
           IF N1 = T1 (1 : 3)
               DISPLAY "Y" NO ADVANCING
           ELSE DISPLAY "N" NO ADVANCING.
           IF N1 < T1 (1 : 3)
               DISPLAY "Y" NO ADVANCING
           ELSE DISPLAY "N" NO ADVANCING.
           IF N1 NOT > T1 (1 : 3)
               DISPLAY "Y" NO ADVANCING
           ELSE DISPLAY "N" NO ADVANCING.
           DISPLAY " 067".
           IF T1 IS NUMERIC
               DISPLAY "Y" NO ADVANCING
           ELSE DISPLAY "N" NO ADVANCING.
           IF T1 IS ALPHABETIC
               DISPLAY "Y" NO ADVANCING
           ELSE DISPLAY "N" NO ADVANCING.
           DISPLAY " 068".
           IF T3 IS ALPHABETIC
               DISPLAY "Y" NO ADVANCING
           ELSE DISPLAY "N" NO ADVANCING.
           DISPLAY " 069".
           IF T4 IS NUMERIC
               DISPLAY "Y" NO ADVANCING
           ELSE DISPLAY "N" NO ADVANCING.
           IF T4 IS ALPHABETIC
               DISPLAY "Y" NO ADVANCING
           ELSE DISPLAY "N" NO ADVANCING.
           DISPLAY " 070".
           IF T5 IS NUMERIC
               DISPLAY "Y" NO ADVANCING
           ELSE DISPLAY "N" NO ADVANCING.
           IF T5 IS ALPHABETIC
               DISPLAY "Y" NO ADVANCING
           ELSE DISPLAY "N" NO ADVANCING.
           DISPLAY " 071".
           IF G1-A IS NUMERIC
               DISPLAY "Y" NO ADVANCING
           ELSE DISPLAY "N" NO ADVANCING.
           IF G1-A IS ALPHABETIC
               DISPLAY "Y" NO ADVANCING
           ELSE DISPLAY "N" NO ADVANCING.
           DISPLAY " 072".
           IF G1-N IS NUMERIC
               DISPLAY "Y" NO ADVANCING
           ELSE DISPLAY "N" NO ADVANCING.
           DISPLAY " 073".
           IF N1 IS NUMERIC
               DISPLAY "Y" NO ADVANCING
           ELSE DISPLAY "N" NO ADVANCING.
           DISPLAY " 074".
           STOP RUN.
