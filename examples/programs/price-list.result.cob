       IDENTIFICATION DIVISION.
       PROGRAM-ID. PRICE-LIST.
       ENVIRONMENT DIVISION.
       INPUT-OUTPUT SECTION.
       FILE-CONTROL.
           SELECT GOODS ASSIGN TO "GOODS.DAT".
       DATA DIVISION.
       FILE SECTION.
       FD GOODS.
       01 GOODS-LINE.
           05 GOODS-NAME PIC X(8).
           05 DOZEN-PRICE PIC 9(4)V9(2).
           05 GOODS-CODE PIC 9(5).
       WORKING-STORAGE SECTION.
       01 REBATE PIC V9(2) VALUE 0.05.
       01 LIST-LINE.
           05 LIST-CODE PIC 9(2)B9(3)B.
           05 LIST-NAME PIC X(8).
           05 LIST-PRICE PIC $(2),$(2)9.9(2).
           05 LIST-EACH PIC Z(5).Z(2).
           05 LIST-CHANGE PIC -(5).9(2).
           05 LIST-MARK PIC X(2).
       01 RX-FLAG-1 PIC 9 VALUE 0.
       PROCEDURE DIVISION.
       OPEN-UP.
           OPEN INPUT GOODS
           MOVE 0 TO RX-FLAG-1
           PERFORM UNTIL RX-FLAG-1 = 1
               READ GOODS
                   AT END
                       MOVE 1 TO RX-FLAG-1
                   NOT AT END
                       IF DOZEN-PRICE = 0
                           MOVE 1 TO RX-FLAG-1
                       ELSE
                           MOVE GOODS-CODE TO LIST-CODE
                           MOVE GOODS-NAME TO LIST-NAME
                           MOVE SPACE TO LIST-MARK
                           MOVE DOZEN-PRICE TO LIST-PRICE
                           COMPUTE LIST-CHANGE ROUNDED = (- DOZEN-PRICE)
                               * REBATE
                           DIVIDE 12 INTO DOZEN-PRICE GIVING LIST-EACH
                               ROUNDED
                           IF LIST-EACH NOT = SPACE
                               CONTINUE
                           ELSE
                               MOVE " *" TO LIST-MARK
                           END-IF
                           DISPLAY LIST-LINE
                       END-IF
               END-READ
           END-PERFORM
           CLOSE GOODS
           STOP RUN.
