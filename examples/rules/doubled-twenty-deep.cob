       IDENTIFICATION DIVISION.
       PROGRAM-ID. DOUBLED.
       DATA DIVISION.
       WORKING-STORAGE SECTION.
       01 CALLS PIC 9(3) VALUE 0.
       PROCEDURE DIVISION.
       MAIN-LINE.
           PERFORM STEP-1.
           STOP RUN.
       STEP-1.
           PERFORM STEP-2.
           PERFORM STEP-2.
       STEP-2.
           PERFORM STEP-3.
           PERFORM STEP-3.
       STEP-3.
           PERFORM STEP-4.
           PERFORM STEP-4.
       STEP-4.
           PERFORM STEP-5.
           PERFORM STEP-5.
       STEP-5.
           PERFORM STEP-6.
           PERFORM STEP-6.
       STEP-6.
           PERFORM STEP-7.
           PERFORM STEP-7.
       STEP-7.
           PERFORM STEP-8.
           PERFORM STEP-8.
       STEP-8.
           PERFORM STEP-9.
           PERFORM STEP-9.
       STEP-9.
           PERFORM STEP-10.
           PERFORM STEP-10.
       STEP-10.
           PERFORM STEP-11.
           PERFORM STEP-11.
       STEP-11.
           PERFORM STEP-12.
           PERFORM STEP-12.
       STEP-12.
           PERFORM STEP-13.
           PERFORM STEP-13.
       STEP-13.
           PERFORM STEP-14.
           PERFORM STEP-14.
       STEP-14.
           PERFORM STEP-15.
           PERFORM STEP-15.
       STEP-15.
           PERFORM STEP-16.
           PERFORM STEP-16.
       STEP-16.
           PERFORM STEP-17.
           PERFORM STEP-17.
       STEP-17.
           PERFORM STEP-18.
           PERFORM STEP-18.
       STEP-18.
           PERFORM STEP-19.
           PERFORM STEP-19.
       STEP-19.
           PERFORM STEP-20.
           PERFORM STEP-20.
       STEP-20.
           ADD 1 TO CALLS.
           IF CALLS = 500
               DISPLAY CALLS
               STOP RUN.
