       identification division.                                         GASB0010
       program-id. gasbill.                                             GASB0020
       installation. northern gas, billing section.                     GASB0030
       date-written. 3/82.   date-compiled.                             GASB0040
      *================================================================ GASB0050
      *  quarterly bills.  consumers and readings are matched by        GASB0060
      *  account; where there is no reading the usual use is estimated, GASB0070
      *  three times at most.  a meter that went round counts on from   GASB0080
      *  99999.  four tariffs.  what is owed from before is carried.    GASB0090
      *                                                                 GASB0100
      *  82/03  first written                                     k.o.  GASB0110
      *  83/01  coin boxes (tariff 3)                             k.o.  GASB0120
      *  83/09  industrial tariff by blocks                     m.w.t.  GASB0130
      *================================================================ GASB0140
       environment division.                                            GASB0150
       input-output section.                                            GASB0160
       file-control.                                                    GASB0170
           select consumers  assign to "CONSUMER.DAT"                   GASB0180
                             file status is consumer-status.            GASB0190
           select readings   assign to "READINGS.DAT"                   GASB0200
                             file status is reading-status.             GASB0210
           select next-quarter assign to "NEWCONS.OUT".                 GASB0220
           select bills      assign to "BILLS.OUT".                     GASB0230
       data division.                                                   GASB0240
       file section.                                                    GASB0250
       fd  consumers    label records standard.                         GASB0260
       01  consumer.                                                    GASB0270
           03  con-account        pic 9(6).                             GASB0280
           03  con-name           pic x(15).                            GASB0290
           03  con-tariff         pic 9.                                GASB0300
           03  con-last-reading   pic 9(5).                             GASB0310
           03  con-usual          pic 9(5).                             GASB0320
           03  con-estimates      pic 9.                                GASB0330
           03  con-balance        pic s9(5)v99 comp-3.                  GASB0340
           03  con-box-money      pic s9(3)v99 comp-3.                  GASB0350
       fd  readings     label records omitted.                          GASB0360
       01  rdg.                                                         GASB0370
           03  rdg-account        pic 9(6).                             GASB0380
           03  rdg-kind           pic x.                                GASB0390
               88  rdg-by-reader  value "R".                            GASB0400
               88  rdg-by-card    value "C".                            GASB0410
               88  rdg-no-access  value "N".                            GASB0420
           03  rdg-figure         pic 9(5).                             GASB0430
       fd  next-quarter label records standard.                         GASB0440
       01  next-consumer          pic x(40).                            GASB0450
       fd  bills        label records omitted.                          GASB0460
       01  bill-line              pic x(52).                            GASB0470
       working-storage section.                                         GASB0480
       77  consumer-status        pic xx.                               GASB0490
       77  reading-status         pic xx.                               GASB0500
       77  con-key                pic 9(6)      comp value 0.           GASB0510
       77  rdg-key                pic 9(6)      comp value 0.           GASB0520
       77  no-more                pic 9(6)      comp value 999999.      GASB0530
       77  units-used             pic s9(6)     comp value 0.           GASB0540
       77  units-left             pic s9(6)     comp value 0.           GASB0550
       77  blk                  pic 9(2)      comp value 0.             GASB0560
       77  t                      pic 9(2)      comp value 0.           GASB0570
       77  f                      pic 9(2)      comp value 0.           GASB0580
       77  page-lines             pic 9(2)      comp value 99.          GASB0590
       77  page-number            pic 9(3)      comp value 0.           GASB0600
       77  charge                 pic s9(5)v99  comp-3 value 0.         GASB0610
       77  gas-cost               pic s9(5)v9(4) comp-3 value 0.        GASB0620
       77  vat                    pic s9(5)v99  comp-3 value 0.         GASB0630
       01  how-read               pic x         value "R".              GASB0640
           88  was-read           value "R" "C".                        GASB0650
           88  was-estimated      value "E".                            GASB0660
           88  is-in-doubt        value "?".                            GASB0670
       01  tariff-values.                                               GASB0680
           03  filler  pic x(16)  value "DOMESTIC  0450 1".             GASB0690
           03  filler  pic x(16)  value "SHOP      0925 1".             GASB0700
           03  filler  pic x(16)  value "COIN BOX  0000 0".             GASB0710
           03  filler  pic x(16)  value "INDUSTRY  8800 1".             GASB0720
       01  tariffs redefines tariff-values.                             GASB0730
           03  tariff  occurs 4.                                        GASB0740
               05  tariff-name    pic x(10).                            GASB0750
               05  tariff-standing pic 99v99.                           GASB0760
               05  filler         pic x.                                GASB0770
               05  tariff-taxed   pic 9.                                GASB0780
       01  blk-values.                                                  GASB0790
      *        domestic, shop, coin box, industry: units to, price      GASB0800
           03  filler  pic x(33)  value                                 GASB0810
               "001000512004000431999990390      ".                     GASB0820
           03  filler  pic x(33)  value                                 GASB0830
               "002000498010000440999990402      ".                     GASB0840
           03  filler  pic x(33)  value                                 GASB0850
               "999990575000000000000000000      ".                     GASB0860
           03  filler  pic x(33)  value                                 GASB0870
               "020000415100000372999990344      ".                     GASB0880
       01  blk-table redefines blk-values.                              GASB0890
           03  blk-row occurs 4.                                        GASB0900
               05  blk-entry occurs 3.                                  GASB0910
                   07  blk-to   pic 9(5).                               GASB0920
                   07  blk-price pic v9(4).                             GASB0930
               05  filler         pic x(6).                             GASB0940
       01  fault-values.                                                GASB0950
           03  filler  pic x(20)  value "NO SUCH ACCOUNT".              GASB0960
           03  filler  pic x(20)  value "FIGURE IS NO NUMBER".          GASB0970
           03  filler  pic x(20)  value "USE FAR ABOVE USUAL".          GASB0980
           03  filler  pic x(20)  value "THREE ESTIMATES".              GASB0990
           03  filler  pic x(20)  value "NO SUCH TARIFF".               GASB1000
           03  filler  pic x(20)  value "SECOND READING".               GASB1010
       01  fault-texts redefines fault-values.                          GASB1020
           03  fault-text         pic x(20) occurs 6.                   GASB1030
       01  fault-counts           comp.                                 GASB1040
           03  fault-count        pic 9(4) occurs 6 value 0.            GASB1050
       01  totals                 comp-3.                               GASB1060
           03  total-row occurs 4.                                      GASB1070
               05  total-bills    pic 9(5).                             GASB1080
               05  total-units    pic s9(9).                            GASB1090
               05  total-money    pic s9(7)v99.                         GASB1100
           03  total-vat          pic s9(7)v99 value 0.                 GASB1110
           03  total-estimated    pic 9(5)     value 0.                 GASB1120
       01  page-head.                                                   GASB1130
           03  filler             pic x(28)                             GASB1140
                                  value "NORTHERN GAS   ACCOUNTS".      GASB1150
           03  filler             pic x(5)     value "PAGE".            GASB1160
           03  head-page          pic zz9.                              GASB1170
       01  name-line.                                                   GASB1180
           03  line-account       pic 999b999.                          GASB1190
           03  filler             pic x(3)     value spaces.            GASB1200
           03  line-name          pic x(15).                            GASB1210
           03  line-tariff        pic x(10).                            GASB1220
       01  units-line.                                                  GASB1230
           03  filler             pic x(10)    value spaces.            GASB1240
           03  line-before        pic z(4)9.                            GASB1250
           03  filler             pic x(4)     value " TO".             GASB1260
           03  line-now           pic z(4)9.                            GASB1270
           03  line-how           pic x.                                GASB1280
           03  line-units         pic zzz,zz9.                          GASB1290
           03  filler             pic x(6)     value " UNITS".          GASB1300
           03  line-gas           pic zz,zz9.99.                        GASB1310
       01  money-line.                                                  GASB1320
           03  filler             pic x(10)    value spaces.            GASB1330
           03  line-what          pic x(22).                            GASB1340
           03  line-money         pic ---,--9.99.                       GASB1350
       01  total-line.                                                  GASB1360
           03  filler             pic x(10)    value spaces.            GASB1370
           03  filler             pic x(20)    value "TO PAY".          GASB1380
           03  line-total         pic $$$$,$$9.99cr.                    GASB1390
           03  line-remark        pic x(9).                             GASB1400
       01  tariff-line.                                                 GASB1410
           03  show-tariff        pic x(10).                            GASB1420
           03  show-bills         pic zz,zz9.                           GASB1430
           03  show-units         pic z(8)9.                            GASB1440
           03  show-money         pic $$,$$$,$$9.99-.                   GASB1450
       procedure division.                                              GASB1460
       1000-begin.                                                      GASB1470
           open input consumers readings                                GASB1480
                output next-quarter bills.                              GASB1490
           if consumer-status not = "00"                                GASB1500
               display "no consumers: " consumer-status                 GASB1510
               go to 9900-stop.                                         GASB1520
           if reading-status not = "00"                                 GASB1530
               display "no readings, all are estimated: "               GASB1540
                       reading-status                                   GASB1550
               move no-more to rdg-key.                                 GASB1560
           perform 1900-clear varying t from 1 by 1 until t > 4.        GASB1570
           perform 8000-next-consumer thru 8000-exit.                   GASB1580
           perform 8100-next-reading thru 8100-exit.                    GASB1590
       1100-match.                                                      GASB1600
           if con-key = no-more and rdg-key = no-more                   GASB1610
               go to 9000-totals.                                       GASB1620
           if rdg-key < con-key                                         GASB1630
               move 1 to f                                              GASB1640
               perform 7000-fault                                       GASB1650
               perform 8100-next-reading thru 8100-exit                 GASB1660
               go to 1100-match.                                        GASB1670
           if rdg-key > con-key                                         GASB1680
               perform 3000-estimate thru 3000-exit                     GASB1690
           else                                                         GASB1700
               perform 2000-actual thru 2000-exit                       GASB1710
               perform 8200-pass-second thru 8200-exit.                 GASB1720
           if is-in-doubt                                               GASB1730
               display con-account " " con-name " not billed"           GASB1740
           else                                                         GASB1750
               perform 4000-bill thru 4000-exit.                        GASB1760
           write next-consumer from consumer.                           GASB1770
           perform 8000-next-consumer thru 8000-exit.                   GASB1780
           go to 1100-match.                                            GASB1790
       1900-clear.                                                      GASB1800
           move 0 to total-bills (t) total-units (t) total-money (t).   GASB1810
      *-----------------------------------------------------------------GASB1820
       2000-actual.                                                     GASB1830
           if rdg-no-access go to 2900-none.                            GASB1840
           if rdg-figure not numeric                                    GASB1850
               move 2 to f                                              GASB1860
               perform 7000-fault                                       GASB1870
               go to 2900-none.                                         GASB1880
           move rdg-kind to how-read.                                   GASB1890
           subtract con-last-reading from rdg-figure giving units-used. GASB1900
           if units-used < 0 add 100000 to units-used.                  GASB1910
           if units-used not > con-usual * 9 go to 2800-good.           GASB1920
           move 3 to f.                                                 GASB1930
           perform 7000-fault.                                          GASB1940
      *        a reader's figure stands, a card's is asked again        GASB1950
           if rdg-by-reader go to 2800-good.                            GASB1960
           move "?" to how-read.                                        GASB1970
           go to 2000-exit.                                             GASB1980
       2800-good.                                                       GASB1990
           move rdg-figure to con-last-reading.                         GASB2000
           move 0 to con-estimates.                                     GASB2010
           compute con-usual rounded = (con-usual * 3 + units-used) / 4.GASB2020
           go to 2000-exit.                                             GASB2030
       2900-none.                                                       GASB2040
           perform 3000-estimate thru 3000-exit.                        GASB2050
       2000-exit.                                                       GASB2060
           exit.                                                        GASB2070
       3000-estimate.                                                   GASB2080
           if con-estimates not < 3                                     GASB2090
               move "?" to how-read                                     GASB2100
               move 4 to f                                              GASB2110
               add 1 to fault-count (f)                                 GASB2120
               go to 3000-exit.                                         GASB2130
           move "E" to how-read.                                        GASB2140
           add 1 to con-estimates.                                      GASB2150
           move con-usual to units-used.                                GASB2160
           add units-used to con-last-reading                           GASB2170
               on size error                                            GASB2180
                   compute con-last-reading =                           GASB2190
                       con-last-reading + units-used - 100000.          GASB2200
           add 1 to total-estimated.                                    GASB2210
       3000-exit.                                                       GASB2220
           exit.                                                        GASB2230
      *-----------------------------------------------------------------GASB2240
       4000-bill.                                                       GASB2250
           move 0 to gas-cost vat.                                      GASB2260
           move con-tariff to t.                                        GASB2270
           go to 4100-blocks 4100-blocks 4300-coin-box 4100-blocks      GASB2280
               depending on con-tariff.                                 GASB2290
           move 5 to f.                                                 GASB2300
           perform 7000-fault.                                          GASB2310
           go to 4000-exit.                                             GASB2320
       4100-blocks.                                                     GASB2330
           move units-used to units-left.                               GASB2340
           move 1 to blk.                                               GASB2350
       4110-blk.                                                        GASB2360
           if units-left > blk-to (t, blk)                              GASB2370
               compute gas-cost = gas-cost                              GASB2380
                   + blk-to (t, blk) * blk-price (t, blk)               GASB2390
               subtract blk-to (t, blk) from units-left                 GASB2400
           else                                                         GASB2410
               compute gas-cost = gas-cost                              GASB2420
                   + units-left * blk-price (t, blk)                    GASB2430
               move 0 to units-left.                                    GASB2440
           add 1 to blk.                                                GASB2450
           if units-left > 0 and blk < 4 go to 4110-blk.                GASB2460
           add tariff-standing (t) gas-cost giving charge rounded.      GASB2470
           go to 4500-tax.                                              GASB2480
       4300-coin-box.                                                   GASB2490
           multiply units-used by blk-price (3, 1) giving gas-cost.     GASB2500
           add gas-cost 0 giving charge rounded.                        GASB2510
           subtract con-box-money from charge.                          GASB2520
           move 0 to con-box-money.                                     GASB2530
       4500-tax.                                                        GASB2540
           if tariff-taxed (t) = 1                                      GASB2550
               multiply charge by 0.08 giving vat rounded.              GASB2560
           perform 5000-print thru 5000-exit.                           GASB2570
           add charge vat to con-balance                                GASB2580
               on size error                                            GASB2590
                   display con-account " balance does not fit".         GASB2600
           add 1 to total-bills (t).                                    GASB2610
           add units-used to total-units (t).                           GASB2620
           add charge to total-money (t).                               GASB2630
           add vat to total-vat.                                        GASB2640
       4000-exit.                                                       GASB2650
           exit.                                                        GASB2660
       5000-print.                                                      GASB2670
           if page-lines > 18 perform 6000-new-page.                    GASB2680
           move con-account to line-account.                            GASB2690
           move con-name to line-name.                                  GASB2700
           move tariff-name (t) to line-tariff.                         GASB2710
           write bill-line from name-line.                              GASB2720
           subtract units-used from con-last-reading giving units-left. GASB2730
           if units-left < 0 add 100000 to units-left.                  GASB2740
           move units-left to line-before.                              GASB2750
           move con-last-reading to line-now.                           GASB2760
           move space to line-how.                                      GASB2770
           if was-estimated move "E" to line-how.                       GASB2780
           move units-used to line-units.                               GASB2790
           add gas-cost 0 giving line-gas rounded.                      GASB2800
           write bill-line from units-line.                             GASB2810
           if con-balance = 0 go to 5100-no-arrears.                    GASB2820
           move con-balance to line-money.                              GASB2830
           if con-balance > 0 move "OWED FROM BEFORE" to line-what      GASB2840
           else move "IN YOUR FAVOUR" to line-what.                     GASB2850
           write bill-line from money-line.                             GASB2860
           add 1 to page-lines.                                         GASB2870
       5100-no-arrears.                                                 GASB2880
           if vat = 0 go to 5200-total.                                 GASB2890
           move vat to line-money.                                      GASB2900
           move "VALUE ADDED TAX" to line-what.                         GASB2910
           write bill-line from money-line.                             GASB2920
           add 1 to page-lines.                                         GASB2930
       5200-total.                                                      GASB2940
           compute line-total = con-balance + charge + vat.             GASB2950
           move spaces to line-remark.                                  GASB2960
           if con-balance > 50 move "  OVERDUE" to line-remark.         GASB2970
           write bill-line from total-line.                             GASB2980
           add 3 to page-lines.                                         GASB2990
       5000-exit.                                                       GASB3000
           exit.                                                        GASB3010
       6000-new-page.                                                   GASB3020
           add 1 to page-number.                                        GASB3030
           move page-number to head-page.                               GASB3040
           write bill-line from page-head.                              GASB3050
           move 1 to page-lines.                                        GASB3060
       7000-fault.                                                      GASB3070
           add 1 to fault-count (f).                                    GASB3080
           display "reading " rdg " " fault-text (f).                   GASB3090
      *-----------------------------------------------------------------GASB3100
       8000-next-consumer.                                              GASB3110
           read consumers at end                                        GASB3120
               move no-more to con-key                                  GASB3130
               go to 8000-exit.                                         GASB3140
           if con-account not numeric or con-balance not numeric        GASB3150
                   or con-usual not numeric                             GASB3160
               display "consumer left out: " con-name                   GASB3170
               go to 8000-next-consumer.                                GASB3180
           move con-account to con-key.                                 GASB3190
       8000-exit.                                                       GASB3200
           exit.                                                        GASB3210
       8100-next-reading.                                               GASB3220
           if rdg-key = no-more go to 8100-exit.                        GASB3230
           read readings at end                                         GASB3240
               move no-more to rdg-key                                  GASB3250
               go to 8100-exit.                                         GASB3260
           if rdg-account not numeric                                   GASB3270
               move 1 to f                                              GASB3280
               perform 7000-fault                                       GASB3290
               go to 8100-next-reading.                                 GASB3300
           move rdg-account to rdg-key.                                 GASB3310
       8100-exit.                                                       GASB3320
           exit.                                                        GASB3330
       8200-pass-second.                                                GASB3340
           perform 8100-next-reading thru 8100-exit.                    GASB3350
           if rdg-key not = con-key go to 8200-exit.                    GASB3360
           move 6 to f.                                                 GASB3370
           perform 7000-fault.                                          GASB3380
           go to 8200-pass-second.                                      GASB3390
       8200-exit.                                                       GASB3400
           exit.                                                        GASB3410
      *-----------------------------------------------------------------GASB3420
       9000-totals.                                                     GASB3430
           perform 9100-tariff varying t from 1 by 1 until t > 4.       GASB3440
           move total-vat to show-money.                                GASB3450
           display "value added tax         " show-money.               GASB3460
           perform 9200-fault varying f from 1 by 1 until f > 6.        GASB3470
           display "estimated " total-estimated ", pages " page-number. GASB3480
       9900-stop.                                                       GASB3490
           close consumers readings next-quarter bills.                 GASB3500
           stop run.                                                    GASB3510
       9100-tariff.                                                     GASB3520
           move tariff-name (t) to show-tariff.                         GASB3530
           move total-bills (t) to show-bills.                          GASB3540
           move total-units (t) to show-units.                          GASB3550
           move total-money (t) to show-money.                          GASB3560
           display tariff-line.                                         GASB3570
       9200-fault.                                                      GASB3580
           if fault-count (f) > 0                                       GASB3590
               display fault-text (f) fault-count (f).                  GASB3600
