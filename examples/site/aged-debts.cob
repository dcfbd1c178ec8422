       identification division.
       program-id. aged-debts.
       environment division.
       input-output section.
       file-control.
           select invoices assign to "INVOICES.DAT".
       data division.
       file section.
       fd  invoices.
       01  invoice.
           05  customer            pic x(10).
           05  due-month           pic 9(4).
           05  amount              pic 9(5).
           05  kind                pic x.
               88  credit-note     value "C".
       working-storage section.
       01  this-month              pic 9(4) value 0.
       01  age-in-months           pic s9(4).
       01  ages.
           05  age-total           pic s9(6) occurs 4 times.
       01  grand.
           05  grand-total         pic s9(7) occurs 4 times.
       01  bucket                  pic 9.
       01  shown                   pic 9(7).
       01  sign-mark               pic x.
       01  held-customer           pic x(10).
       01  reminder                pic x(50) value "PLEASE PAY WHAT IS O
      -    "VERDUE WITHIN A WEEK".
       procedure division.
       main-line.
           move 1205 to this-month.
           open input invoices.
           perform clear-grand.
           perform next-invoice thru next-exit.
           if customer = high-values go to nothing-owed.
       new-customer.
           perform clear-ages.
       same-customer.
           perform add-invoice thru add-exit.
           move customer to held-customer.
           perform next-invoice thru next-exit.
           if customer = held-customer go to same-customer.
           perform show-customer thru show-exit.
           if customer not = high-values go to new-customer.
           display "ALL CUSTOMERS".
           perform varying bucket from 1 by 1 until bucket > 4
               if grand-total (bucket) negative
                   move "-" to sign-mark
               else
                   move " " to sign-mark
               end-if
               move grand-total (bucket) to shown
               display "  " bucket " " shown sign-mark
           end-perform.
       close-down.
           close invoices.
           stop run.
       nothing-owed.
           display "NOTHING IS OWED".
           go to close-down.
       next-invoice.
           read invoices at end
               move high-values to customer
               go to next-exit.
           if amount not numeric
               display "NO AMOUNT: " invoice
               go to next-invoice.
           if amount = 0 go to next-invoice.
       next-exit.
           exit.
       add-invoice.
           if credit-note
               subtract amount from age-total (1)
               go to add-exit.
           subtract due-month from this-month giving age-in-months.
      *        months count from January 1900: 1205 is June 2000
           if age-in-months < 0 move 0 to age-in-months.
           evaluate age-in-months
               when 0
                   move 1 to bucket
               when 1
                   move 2 to bucket
               when 2 thru 5
                   move 3 to bucket
               when other
                   move 4 to bucket
           end-evaluate.
           add amount to age-total (bucket).
       add-exit.
           exit.
       show-customer.
           display held-customer.
           perform varying bucket from 1 by 1 until bucket > 4
               add age-total (bucket) to grand-total (bucket)
               if age-total (bucket) not = 0
                   move age-total (bucket) to shown
                   if age-total (bucket) < 0
                       display "  " bucket " " shown " IN CREDIT"
                   else
                       display "  " bucket " " shown
                   end-if
               end-if
           end-perform.
           if age-total (3) + age-total (4) > 500
               display "  " reminder
           else
               next sentence.
           if age-total (4) not > 0 go to show-exit.
           display "  TO THE SOLICITOR".
       show-exit.
           exit.
       clear-ages.
           move 0 to age-total (1) age-total (2) age-total (3).
           move 0 to age-total (4).
       clear-grand.
           move 0 to grand-total (1) grand-total (2) grand-total (3).
           move 0 to grand-total (4).
