       IDENTIFICATION DIVISION.
       PROGRAM-ID. MOVE-EDITED.
       DATA DIVISION.
       WORKING-STORAGE SECTION.
       01 A1 PIC 9 VALUE 7.
       01 A1-X REDEFINES A1 PIC X(1).
       01 A2 PIC 9(5) VALUE 12345.
       01 A2-X REDEFINES A2 PIC X(5).
       01 A3 PIC 9(3)V99 VALUE 123.45.
       01 A3-X REDEFINES A3 PIC X(5).
       01 A4 PIC S9(4) VALUE -1234.
       01 A4-X REDEFINES A4 PIC X(4).
       01 A5 PIC S9(2)V9(3) VALUE -12.345.
       01 A5-X REDEFINES A5 PIC X(5).
       01 A6 PIC V9(4) VALUE 0.9876.
       01 A6-X REDEFINES A6 PIC X(4).
       01 A7 PIC S9(3) SIGN LEADING SEPARATE VALUE -120.
       01 A7-X REDEFINES A7 PIC X(4).
       01 A8 PIC S9(2)V9 SIGN TRAILING SEPARATE VALUE +98.7.
       01 A8-X REDEFINES A8 PIC X(4).
       01 A9 PIC S9(9)V9(9) VALUE -123456789.987654321.
       01 A9-X REDEFINES A9 PIC X(18).
       01 A10 PIC 9(18) VALUE 998877665544332211.
       01 A10-X REDEFINES A10 PIC X(18).
       01 T1 PIC X(4) VALUE "0042".
       01 E1 PIC ZZ9.
       01 E2 PIC Z(5).
       01 E3 PIC ZZ,ZZ9.99.
       01 E4 PIC Z(4).ZZ.
       01 E5 PIC $$,$$9.99.
       01 E6 PIC $(6).99CR.
       01 E7 PIC $ZZZ9.9.
       01 E8 PIC +(4)9.
       01 E9 PIC --,--9.99.
       01 E10 PIC -9(4).9.
       01 E11 PIC Z(3)9V99-.
       01 E12 PIC *(4)9.9.
       01 E13 PIC **,***.**.
       01 E14 PIC 99/99/99.
       01 E15 PIC 9B99B999.
       01 E16 PIC ZZ9,000.
       01 E17 PIC 9(4)V9(2)DB.
       PROCEDURE DIVISION.
       CASES.
           MOVE A1 TO E1
           DISPLAY "001 [" E1 "]"
           MOVE A1 TO E2
           DISPLAY "002 [" E2 "]"
           MOVE A1 TO E3
           DISPLAY "003 [" E3 "]"
           MOVE A1 TO E4
           DISPLAY "004 [" E4 "]"
           MOVE A1 TO E5
           DISPLAY "005 [" E5 "]"
           MOVE A1 TO E6
           DISPLAY "006 [" E6 "]"
           MOVE A1 TO E7
           DISPLAY "007 [" E7 "]"
           MOVE A1 TO E8
           DISPLAY "008 [" E8 "]"
           MOVE A1 TO E9
           DISPLAY "009 [" E9 "]"
           MOVE A1 TO E10
           DISPLAY "010 [" E10 "]"
           MOVE A1 TO E11
           DISPLAY "011 [" E11 "]"
           MOVE A1 TO E12
           DISPLAY "012 [" E12 "]"
           MOVE A1 TO E13
           DISPLAY "013 [" E13 "]"
           MOVE A1 TO E14
           DISPLAY "014 [" E14 "]"
           MOVE A1 TO E15
           DISPLAY "015 [" E15 "]"
           MOVE A1 TO E16
           DISPLAY "016 [" E16 "]"
           MOVE A1 TO E17
           DISPLAY "017 [" E17 "]"
           MOVE A2 TO E1
           DISPLAY "018 [" E1 "]"
           MOVE A2 TO E2
           DISPLAY "019 [" E2 "]"
           MOVE A2 TO E3
           DISPLAY "020 [" E3 "]"
           MOVE A2 TO E4
           DISPLAY "021 [" E4 "]"
           MOVE A2 TO E5
           DISPLAY "022 [" E5 "]"
           MOVE A2 TO E6
           DISPLAY "023 [" E6 "]"
           MOVE A2 TO E7
           DISPLAY "024 [" E7 "]"
           MOVE A2 TO E8
           DISPLAY "025 [" E8 "]"
           MOVE A2 TO E9
           DISPLAY "026 [" E9 "]"
           MOVE A2 TO E10
           DISPLAY "027 [" E10 "]"
           MOVE A2 TO E11
           DISPLAY "028 [" E11 "]"
           MOVE A2 TO E12
           DISPLAY "029 [" E12 "]"
           MOVE A2 TO E13
           DISPLAY "030 [" E13 "]"
           MOVE A2 TO E14
           DISPLAY "031 [" E14 "]"
           MOVE A2 TO E15
           DISPLAY "032 [" E15 "]"
           MOVE A2 TO E16
           DISPLAY "033 [" E16 "]"
           MOVE A2 TO E17
           DISPLAY "034 [" E17 "]"
           MOVE A3 TO E1
           DISPLAY "035 [" E1 "]"
           MOVE A3 TO E2
           DISPLAY "036 [" E2 "]"
           MOVE A3 TO E3
           DISPLAY "037 [" E3 "]"
           MOVE A3 TO E4
           DISPLAY "038 [" E4 "]"
           MOVE A3 TO E5
           DISPLAY "039 [" E5 "]"
           MOVE A3 TO E6
           DISPLAY "040 [" E6 "]"
           MOVE A3 TO E7
           DISPLAY "041 [" E7 "]"
           MOVE A3 TO E8
           DISPLAY "042 [" E8 "]"
           MOVE A3 TO E9
           DISPLAY "043 [" E9 "]"
           MOVE A3 TO E10
           DISPLAY "044 [" E10 "]"
           MOVE A3 TO E11
           DISPLAY "045 [" E11 "]"
           MOVE A3 TO E12
           DISPLAY "046 [" E12 "]"
           MOVE A3 TO E13
           DISPLAY "047 [" E13 "]"
           MOVE A3 TO E14
           DISPLAY "048 [" E14 "]"
           MOVE A3 TO E15
           DISPLAY "049 [" E15 "]"
           MOVE A3 TO E16
           DISPLAY "050 [" E16 "]"
           MOVE A3 TO E17
           DISPLAY "051 [" E17 "]"
           MOVE A4 TO E1
           DISPLAY "052 [" E1 "]"
           MOVE A4 TO E2
           DISPLAY "053 [" E2 "]"
           MOVE A4 TO E3
           DISPLAY "054 [" E3 "]"
           MOVE A4 TO E4
           DISPLAY "055 [" E4 "]"
           MOVE A4 TO E5
           DISPLAY "056 [" E5 "]"
           MOVE A4 TO E6
           DISPLAY "057 [" E6 "]"
           MOVE A4 TO E7
           DISPLAY "058 [" E7 "]"
           MOVE A4 TO E8
           DISPLAY "059 [" E8 "]"
           MOVE A4 TO E9
           DISPLAY "060 [" E9 "]"
           MOVE A4 TO E10
           DISPLAY "061 [" E10 "]"
           MOVE A4 TO E11
           DISPLAY "062 [" E11 "]"
           MOVE A4 TO E12
           DISPLAY "063 [" E12 "]"
           MOVE A4 TO E13
           DISPLAY "064 [" E13 "]"
           MOVE A4 TO E14
           DISPLAY "065 [" E14 "]"
           MOVE A4 TO E15
           DISPLAY "066 [" E15 "]"
           MOVE A4 TO E16
           DISPLAY "067 [" E16 "]"
           MOVE A4 TO E17
           DISPLAY "068 [" E17 "]"
           MOVE A5 TO E1
           DISPLAY "069 [" E1 "]"
           MOVE A5 TO E2
           DISPLAY "070 [" E2 "]"
           MOVE A5 TO E3
           DISPLAY "071 [" E3 "]"
           MOVE A5 TO E4
           DISPLAY "072 [" E4 "]"
           MOVE A5 TO E5
           DISPLAY "073 [" E5 "]"
           MOVE A5 TO E6
           DISPLAY "074 [" E6 "]"
           MOVE A5 TO E7
           DISPLAY "075 [" E7 "]"
           MOVE A5 TO E8
           DISPLAY "076 [" E8 "]"
           MOVE A5 TO E9
           DISPLAY "077 [" E9 "]"
           MOVE A5 TO E10
           DISPLAY "078 [" E10 "]"
           MOVE A5 TO E11
           DISPLAY "079 [" E11 "]"
           MOVE A5 TO E12
           DISPLAY "080 [" E12 "]"
           MOVE A5 TO E13
           DISPLAY "081 [" E13 "]"
           MOVE A5 TO E14
           DISPLAY "082 [" E14 "]"
           MOVE A5 TO E15
           DISPLAY "083 [" E15 "]"
           MOVE A5 TO E16
           DISPLAY "084 [" E16 "]"
           MOVE A5 TO E17
           DISPLAY "085 [" E17 "]"
           MOVE A6 TO E1
           DISPLAY "086 [" E1 "]"
           MOVE A6 TO E2
           DISPLAY "087 [" E2 "]"
           MOVE A6 TO E3
           DISPLAY "088 [" E3 "]"
           MOVE A6 TO E4
           DISPLAY "089 [" E4 "]"
           MOVE A6 TO E5
           DISPLAY "090 [" E5 "]"
           MOVE A6 TO E6
           DISPLAY "091 [" E6 "]"
           MOVE A6 TO E7
           DISPLAY "092 [" E7 "]"
           MOVE A6 TO E8
           DISPLAY "093 [" E8 "]"
           MOVE A6 TO E9
           DISPLAY "094 [" E9 "]"
           MOVE A6 TO E10
           DISPLAY "095 [" E10 "]"
           MOVE A6 TO E11
           DISPLAY "096 [" E11 "]"
           MOVE A6 TO E12
           DISPLAY "097 [" E12 "]"
           MOVE A6 TO E13
           DISPLAY "098 [" E13 "]"
           MOVE A6 TO E14
           DISPLAY "099 [" E14 "]"
           MOVE A6 TO E15
           DISPLAY "100 [" E15 "]"
           MOVE A6 TO E16
           DISPLAY "101 [" E16 "]"
           MOVE A6 TO E17
           DISPLAY "102 [" E17 "]"
           MOVE A7 TO E1
           DISPLAY "103 [" E1 "]"
           MOVE A7 TO E2
           DISPLAY "104 [" E2 "]"
           MOVE A7 TO E3
           DISPLAY "105 [" E3 "]"
           MOVE A7 TO E4
           DISPLAY "106 [" E4 "]"
           MOVE A7 TO E5
           DISPLAY "107 [" E5 "]"
           MOVE A7 TO E6
           DISPLAY "108 [" E6 "]"
           MOVE A7 TO E7
           DISPLAY "109 [" E7 "]"
           MOVE A7 TO E8
           DISPLAY "110 [" E8 "]"
           MOVE A7 TO E9
           DISPLAY "111 [" E9 "]"
           MOVE A7 TO E10
           DISPLAY "112 [" E10 "]"
           MOVE A7 TO E11
           DISPLAY "113 [" E11 "]"
           MOVE A7 TO E12
           DISPLAY "114 [" E12 "]"
           MOVE A7 TO E13
           DISPLAY "115 [" E13 "]"
           MOVE A7 TO E14
           DISPLAY "116 [" E14 "]"
           MOVE A7 TO E15
           DISPLAY "117 [" E15 "]"
           MOVE A7 TO E16
           DISPLAY "118 [" E16 "]"
           MOVE A7 TO E17
           DISPLAY "119 [" E17 "]"
           MOVE A8 TO E1
           DISPLAY "120 [" E1 "]"
           MOVE A8 TO E2
           DISPLAY "121 [" E2 "]"
           MOVE A8 TO E3
           DISPLAY "122 [" E3 "]"
           MOVE A8 TO E4
           DISPLAY "123 [" E4 "]"
           MOVE A8 TO E5
           DISPLAY "124 [" E5 "]"
           MOVE A8 TO E6
           DISPLAY "125 [" E6 "]"
           MOVE A8 TO E7
           DISPLAY "126 [" E7 "]"
           MOVE A8 TO E8
           DISPLAY "127 [" E8 "]"
           MOVE A8 TO E9
           DISPLAY "128 [" E9 "]"
           MOVE A8 TO E10
           DISPLAY "129 [" E10 "]"
           MOVE A8 TO E11
           DISPLAY "130 [" E11 "]"
           MOVE A8 TO E12
           DISPLAY "131 [" E12 "]"
           MOVE A8 TO E13
           DISPLAY "132 [" E13 "]"
           MOVE A8 TO E14
           DISPLAY "133 [" E14 "]"
           MOVE A8 TO E15
           DISPLAY "134 [" E15 "]"
           MOVE A8 TO E16
           DISPLAY "135 [" E16 "]"
           MOVE A8 TO E17
           DISPLAY "136 [" E17 "]"
           MOVE A9 TO E1
           DISPLAY "137 [" E1 "]"
           MOVE A9 TO E2
           DISPLAY "138 [" E2 "]"
           MOVE A9 TO E3
           DISPLAY "139 [" E3 "]"
           MOVE A9 TO E4
           DISPLAY "140 [" E4 "]"
           MOVE A9 TO E5
           DISPLAY "141 [" E5 "]"
           MOVE A9 TO E6
           DISPLAY "142 [" E6 "]"
           MOVE A9 TO E7
           DISPLAY "143 [" E7 "]"
           MOVE A9 TO E8
           DISPLAY "144 [" E8 "]"
           MOVE A9 TO E9
           DISPLAY "145 [" E9 "]"
           MOVE A9 TO E10
           DISPLAY "146 [" E10 "]"
           MOVE A9 TO E11
           DISPLAY "147 [" E11 "]"
           MOVE A9 TO E12
           DISPLAY "148 [" E12 "]"
           MOVE A9 TO E13
           DISPLAY "149 [" E13 "]"
           MOVE A9 TO E14
           DISPLAY "150 [" E14 "]"
           MOVE A9 TO E15
           DISPLAY "151 [" E15 "]"
           MOVE A9 TO E16
           DISPLAY "152 [" E16 "]"
           MOVE A9 TO E17
           DISPLAY "153 [" E17 "]"
           MOVE A10 TO E1
           DISPLAY "154 [" E1 "]"
           MOVE A10 TO E2
           DISPLAY "155 [" E2 "]"
           MOVE A10 TO E3
           DISPLAY "156 [" E3 "]"
           MOVE A10 TO E4
           DISPLAY "157 [" E4 "]"
           MOVE A10 TO E5
           DISPLAY "158 [" E5 "]"
           MOVE A10 TO E6
           DISPLAY "159 [" E6 "]"
           MOVE A10 TO E7
           DISPLAY "160 [" E7 "]"
           MOVE A10 TO E8
           DISPLAY "161 [" E8 "]"
           MOVE A10 TO E9
           DISPLAY "162 [" E9 "]"
           MOVE A10 TO E10
           DISPLAY "163 [" E10 "]"
           MOVE A10 TO E11
           DISPLAY "164 [" E11 "]"
           MOVE A10 TO E12
           DISPLAY "165 [" E12 "]"
           MOVE A10 TO E13
           DISPLAY "166 [" E13 "]"
           MOVE A10 TO E14
           DISPLAY "167 [" E14 "]"
           MOVE A10 TO E15
           DISPLAY "168 [" E15 "]"
           MOVE A10 TO E16
           DISPLAY "169 [" E16 "]"
           MOVE A10 TO E17
           DISPLAY "170 [" E17 "]"
           MOVE 0 TO E1
           DISPLAY "171 [" E1 "]"
           MOVE 0 TO E2
           DISPLAY "172 [" E2 "]"
           MOVE 0 TO E3
           DISPLAY "173 [" E3 "]"
           MOVE 0 TO E4
           DISPLAY "174 [" E4 "]"
           MOVE 0 TO E5
           DISPLAY "175 [" E5 "]"
           MOVE 0 TO E6
           DISPLAY "176 [" E6 "]"
           MOVE 0 TO E7
           DISPLAY "177 [" E7 "]"
           MOVE 0 TO E8
           DISPLAY "178 [" E8 "]"
           MOVE 0 TO E9
           DISPLAY "179 [" E9 "]"
           MOVE 0 TO E10
           DISPLAY "180 [" E10 "]"
           MOVE 0 TO E11
           DISPLAY "181 [" E11 "]"
           MOVE 0 TO E12
           DISPLAY "182 [" E12 "]"
           MOVE 0 TO E13
           DISPLAY "183 [" E13 "]"
           MOVE 0 TO E14
           DISPLAY "184 [" E14 "]"
           MOVE 0 TO E15
           DISPLAY "185 [" E15 "]"
           MOVE 0 TO E16
           DISPLAY "186 [" E16 "]"
           MOVE 0 TO E17
           DISPLAY "187 [" E17 "]"
           MOVE 7 TO E1
           DISPLAY "188 [" E1 "]"
           MOVE 7 TO E2
           DISPLAY "189 [" E2 "]"
           MOVE 7 TO E3
           DISPLAY "190 [" E3 "]"
           MOVE 7 TO E4
           DISPLAY "191 [" E4 "]"
           MOVE 7 TO E5
           DISPLAY "192 [" E5 "]"
           MOVE 7 TO E6
           DISPLAY "193 [" E6 "]"
           MOVE 7 TO E7
           DISPLAY "194 [" E7 "]"
           MOVE 7 TO E8
           DISPLAY "195 [" E8 "]"
           MOVE 7 TO E9
           DISPLAY "196 [" E9 "]"
           MOVE 7 TO E10
           DISPLAY "197 [" E10 "]"
           MOVE 7 TO E11
           DISPLAY "198 [" E11 "]"
           MOVE 7 TO E12
           DISPLAY "199 [" E12 "]"
           MOVE 7 TO E13
           DISPLAY "200 [" E13 "]"
           MOVE 7 TO E14
           DISPLAY "201 [" E14 "]"
           MOVE 7 TO E15
           DISPLAY "202 [" E15 "]"
           MOVE 7 TO E16
           DISPLAY "203 [" E16 "]"
           MOVE 7 TO E17
           DISPLAY "204 [" E17 "]"
           MOVE -7 TO E1
           DISPLAY "205 [" E1 "]"
           MOVE -7 TO E2
           DISPLAY "206 [" E2 "]"
           MOVE -7 TO E3
           DISPLAY "207 [" E3 "]"
           MOVE -7 TO E4
           DISPLAY "208 [" E4 "]"
           MOVE -7 TO E5
           DISPLAY "209 [" E5 "]"
           MOVE -7 TO E6
           DISPLAY "210 [" E6 "]"
           MOVE -7 TO E7
           DISPLAY "211 [" E7 "]"
           MOVE -7 TO E8
           DISPLAY "212 [" E8 "]"
           MOVE -7 TO E9
           DISPLAY "213 [" E9 "]"
           MOVE -7 TO E10
           DISPLAY "214 [" E10 "]"
           MOVE -7 TO E11
           DISPLAY "215 [" E11 "]"
           MOVE -7 TO E12
           DISPLAY "216 [" E12 "]"
           MOVE -7 TO E13
           DISPLAY "217 [" E13 "]"
           MOVE -7 TO E14
           DISPLAY "218 [" E14 "]"
           MOVE -7 TO E15
           DISPLAY "219 [" E15 "]"
           MOVE -7 TO E16
           DISPLAY "220 [" E16 "]"
           MOVE -7 TO E17
           DISPLAY "221 [" E17 "]"
           MOVE +123.456 TO E1
           DISPLAY "222 [" E1 "]"
           MOVE +123.456 TO E2
           DISPLAY "223 [" E2 "]"
           MOVE +123.456 TO E3
           DISPLAY "224 [" E3 "]"
           MOVE +123.456 TO E4
           DISPLAY "225 [" E4 "]"
           MOVE +123.456 TO E5
           DISPLAY "226 [" E5 "]"
           MOVE +123.456 TO E6
           DISPLAY "227 [" E6 "]"
           MOVE +123.456 TO E7
           DISPLAY "228 [" E7 "]"
           MOVE +123.456 TO E8
           DISPLAY "229 [" E8 "]"
           MOVE +123.456 TO E9
           DISPLAY "230 [" E9 "]"
           MOVE +123.456 TO E10
           DISPLAY "231 [" E10 "]"
           MOVE +123.456 TO E11
           DISPLAY "232 [" E11 "]"
           MOVE +123.456 TO E12
           DISPLAY "233 [" E12 "]"
           MOVE +123.456 TO E13
           DISPLAY "234 [" E13 "]"
           MOVE +123.456 TO E14
           DISPLAY "235 [" E14 "]"
           MOVE +123.456 TO E15
           DISPLAY "236 [" E15 "]"
           MOVE +123.456 TO E16
           DISPLAY "237 [" E16 "]"
           MOVE +123.456 TO E17
           DISPLAY "238 [" E17 "]"
           MOVE -0.05 TO E1
           DISPLAY "239 [" E1 "]"
           MOVE -0.05 TO E2
           DISPLAY "240 [" E2 "]"
           MOVE -0.05 TO E3
           DISPLAY "241 [" E3 "]"
           MOVE -0.05 TO E4
           DISPLAY "242 [" E4 "]"
           MOVE -0.05 TO E5
           DISPLAY "243 [" E5 "]"
           MOVE -0.05 TO E6
           DISPLAY "244 [" E6 "]"
           MOVE -0.05 TO E7
           DISPLAY "245 [" E7 "]"
           MOVE -0.05 TO E8
           DISPLAY "246 [" E8 "]"
           MOVE -0.05 TO E9
           DISPLAY "247 [" E9 "]"
           MOVE -0.05 TO E10
           DISPLAY "248 [" E10 "]"
           MOVE -0.05 TO E11
           DISPLAY "249 [" E11 "]"
           MOVE -0.05 TO E12
           DISPLAY "250 [" E12 "]"
           MOVE -0.05 TO E13
           DISPLAY "251 [" E13 "]"
           MOVE -0.05 TO E14
           DISPLAY "252 [" E14 "]"
           MOVE -0.05 TO E15
           DISPLAY "253 [" E15 "]"
           MOVE -0.05 TO E16
           DISPLAY "254 [" E16 "]"
           MOVE -0.05 TO E17
           DISPLAY "255 [" E17 "]"
           MOVE 99999 TO E1
           DISPLAY "256 [" E1 "]"
           MOVE 99999 TO E2
           DISPLAY "257 [" E2 "]"
           MOVE 99999 TO E3
           DISPLAY "258 [" E3 "]"
           MOVE 99999 TO E4
           DISPLAY "259 [" E4 "]"
           MOVE 99999 TO E5
           DISPLAY "260 [" E5 "]"
           MOVE 99999 TO E6
           DISPLAY "261 [" E6 "]"
           MOVE 99999 TO E7
           DISPLAY "262 [" E7 "]"
           MOVE 99999 TO E8
           DISPLAY "263 [" E8 "]"
           MOVE 99999 TO E9
           DISPLAY "264 [" E9 "]"
           MOVE 99999 TO E10
           DISPLAY "265 [" E10 "]"
           MOVE 99999 TO E11
           DISPLAY "266 [" E11 "]"
           MOVE 99999 TO E12
           DISPLAY "267 [" E12 "]"
           MOVE 99999 TO E13
           DISPLAY "268 [" E13 "]"
           MOVE 99999 TO E14
           DISPLAY "269 [" E14 "]"
           MOVE 99999 TO E15
           DISPLAY "270 [" E15 "]"
           MOVE 99999 TO E16
           DISPLAY "271 [" E16 "]"
           MOVE 99999 TO E17
           DISPLAY "272 [" E17 "]"
           MOVE .5 TO E1
           DISPLAY "273 [" E1 "]"
           MOVE .5 TO E2
           DISPLAY "274 [" E2 "]"
           MOVE .5 TO E3
           DISPLAY "275 [" E3 "]"
           MOVE .5 TO E4
           DISPLAY "276 [" E4 "]"
           MOVE .5 TO E5
           DISPLAY "277 [" E5 "]"
           MOVE .5 TO E6
           DISPLAY "278 [" E6 "]"
           MOVE .5 TO E7
           DISPLAY "279 [" E7 "]"
           MOVE .5 TO E8
           DISPLAY "280 [" E8 "]"
           MOVE .5 TO E9
           DISPLAY "281 [" E9 "]"
           MOVE .5 TO E10
           DISPLAY "282 [" E10 "]"
           MOVE .5 TO E11
           DISPLAY "283 [" E11 "]"
           MOVE .5 TO E12
           DISPLAY "284 [" E12 "]"
           MOVE .5 TO E13
           DISPLAY "285 [" E13 "]"
           MOVE .5 TO E14
           DISPLAY "286 [" E14 "]"
           MOVE .5 TO E15
           DISPLAY "287 [" E15 "]"
           MOVE .5 TO E16
           DISPLAY "288 [" E16 "]"
           MOVE .5 TO E17
           DISPLAY "289 [" E17 "]"
           MOVE ZERO TO E1
           DISPLAY "290 [" E1 "]"
           MOVE ZERO TO E2
           DISPLAY "291 [" E2 "]"
           MOVE ZERO TO E3
           DISPLAY "292 [" E3 "]"
           MOVE ZERO TO E4
           DISPLAY "293 [" E4 "]"
           MOVE ZERO TO E5
           DISPLAY "294 [" E5 "]"
           MOVE ZERO TO E6
           DISPLAY "295 [" E6 "]"
           MOVE ZERO TO E7
           DISPLAY "296 [" E7 "]"
           MOVE ZERO TO E8
           DISPLAY "297 [" E8 "]"
           MOVE ZERO TO E9
           DISPLAY "298 [" E9 "]"
           MOVE ZERO TO E10
           DISPLAY "299 [" E10 "]"
           MOVE ZERO TO E11
           DISPLAY "300 [" E11 "]"
           MOVE ZERO TO E12
           DISPLAY "301 [" E12 "]"
           MOVE ZERO TO E13
           DISPLAY "302 [" E13 "]"
           MOVE ZERO TO E14
           DISPLAY "303 [" E14 "]"
           MOVE ZERO TO E15
           DISPLAY "304 [" E15 "]"
           MOVE ZERO TO E16
           DISPLAY "305 [" E16 "]"
           MOVE ZERO TO E17
           DISPLAY "306 [" E17 "]"
           MOVE T1 TO E1
           DISPLAY "307 [" E1 "]"
           MOVE T1 TO E2
           DISPLAY "308 [" E2 "]"
           MOVE T1 TO E3
           DISPLAY "309 [" E3 "]"
           MOVE T1 TO E4
           DISPLAY "310 [" E4 "]"
           MOVE T1 TO E5
           DISPLAY "311 [" E5 "]"
           MOVE T1 TO E6
           DISPLAY "312 [" E6 "]"
           MOVE T1 TO E7
           DISPLAY "313 [" E7 "]"
           MOVE T1 TO E8
           DISPLAY "314 [" E8 "]"
           MOVE T1 TO E9
           DISPLAY "315 [" E9 "]"
           MOVE T1 TO E10
           DISPLAY "316 [" E10 "]"
           MOVE T1 TO E11
           DISPLAY "317 [" E11 "]"
           MOVE T1 TO E12
           DISPLAY "318 [" E12 "]"
           MOVE T1 TO E13
           DISPLAY "319 [" E13 "]"
           MOVE T1 TO E14
           DISPLAY "320 [" E14 "]"
           MOVE T1 TO E15
           DISPLAY "321 [" E15 "]"
           MOVE T1 TO E16
           DISPLAY "322 [" E16 "]"
           MOVE T1 TO E17
           DISPLAY "323 [" E17 "]"
           ADD A3 A5 GIVING E1
           DISPLAY "324 [" E1 "]"
           ADD A3 A5 GIVING E2
           DISPLAY "325 [" E2 "]"
           ADD A3 A5 GIVING E3
           DISPLAY "326 [" E3 "]"
           ADD A3 A5 GIVING E4
           DISPLAY "327 [" E4 "]"
           ADD A3 A5 GIVING E5
           DISPLAY "328 [" E5 "]"
           ADD A3 A5 GIVING E6
           DISPLAY "329 [" E6 "]"
           ADD A3 A5 GIVING E7
           DISPLAY "330 [" E7 "]"
           ADD A3 A5 GIVING E8
           DISPLAY "331 [" E8 "]"
           ADD A3 A5 GIVING E9
           DISPLAY "332 [" E9 "]"
           ADD A3 A5 GIVING E10
           DISPLAY "333 [" E10 "]"
           ADD A3 A5 GIVING E11
           DISPLAY "334 [" E11 "]"
           ADD A3 A5 GIVING E12
           DISPLAY "335 [" E12 "]"
           ADD A3 A5 GIVING E13
           DISPLAY "336 [" E13 "]"
           ADD A3 A5 GIVING E14
           DISPLAY "337 [" E14 "]"
           ADD A3 A5 GIVING E15
           DISPLAY "338 [" E15 "]"
           ADD A3 A5 GIVING E16
           DISPLAY "339 [" E16 "]"
           ADD A3 A5 GIVING E17
           DISPLAY "340 [" E17 "]"
           SUBTRACT 200 FROM A3 GIVING E1 ROUNDED
           DISPLAY "341 [" E1 "]"
           SUBTRACT 200 FROM A3 GIVING E2 ROUNDED
           DISPLAY "342 [" E2 "]"
           SUBTRACT 200 FROM A3 GIVING E3 ROUNDED
           DISPLAY "343 [" E3 "]"
           SUBTRACT 200 FROM A3 GIVING E4 ROUNDED
           DISPLAY "344 [" E4 "]"
           SUBTRACT 200 FROM A3 GIVING E5 ROUNDED
           DISPLAY "345 [" E5 "]"
           SUBTRACT 200 FROM A3 GIVING E6 ROUNDED
           DISPLAY "346 [" E6 "]"
           SUBTRACT 200 FROM A3 GIVING E7 ROUNDED
           DISPLAY "347 [" E7 "]"
           SUBTRACT 200 FROM A3 GIVING E8 ROUNDED
           DISPLAY "348 [" E8 "]"
           SUBTRACT 200 FROM A3 GIVING E9 ROUNDED
           DISPLAY "349 [" E9 "]"
           SUBTRACT 200 FROM A3 GIVING E10 ROUNDED
           DISPLAY "350 [" E10 "]"
           SUBTRACT 200 FROM A3 GIVING E11 ROUNDED
           DISPLAY "351 [" E11 "]"
           SUBTRACT 200 FROM A3 GIVING E12 ROUNDED
           DISPLAY "352 [" E12 "]"
           SUBTRACT 200 FROM A3 GIVING E13 ROUNDED
           DISPLAY "353 [" E13 "]"
           SUBTRACT 200 FROM A3 GIVING E14 ROUNDED
           DISPLAY "354 [" E14 "]"
           SUBTRACT 200 FROM A3 GIVING E15 ROUNDED
           DISPLAY "355 [" E15 "]"
           SUBTRACT 200 FROM A3 GIVING E16 ROUNDED
           DISPLAY "356 [" E16 "]"
           SUBTRACT 200 FROM A3 GIVING E17 ROUNDED
           DISPLAY "357 [" E17 "]"
           MULTIPLY A3 BY A5 GIVING E1 ROUNDED
           DISPLAY "358 [" E1 "]"
           MULTIPLY A3 BY A5 GIVING E2 ROUNDED
           DISPLAY "359 [" E2 "]"
           MULTIPLY A3 BY A5 GIVING E3 ROUNDED
           DISPLAY "360 [" E3 "]"
           MULTIPLY A3 BY A5 GIVING E4 ROUNDED
           DISPLAY "361 [" E4 "]"
           MULTIPLY A3 BY A5 GIVING E5 ROUNDED
           DISPLAY "362 [" E5 "]"
           MULTIPLY A3 BY A5 GIVING E6 ROUNDED
           DISPLAY "363 [" E6 "]"
           MULTIPLY A3 BY A5 GIVING E7 ROUNDED
           DISPLAY "364 [" E7 "]"
           MULTIPLY A3 BY A5 GIVING E8 ROUNDED
           DISPLAY "365 [" E8 "]"
           MULTIPLY A3 BY A5 GIVING E9 ROUNDED
           DISPLAY "366 [" E9 "]"
           MULTIPLY A3 BY A5 GIVING E10 ROUNDED
           DISPLAY "367 [" E10 "]"
           MULTIPLY A3 BY A5 GIVING E11 ROUNDED
           DISPLAY "368 [" E11 "]"
           MULTIPLY A3 BY A5 GIVING E12 ROUNDED
           DISPLAY "369 [" E12 "]"
           MULTIPLY A3 BY A5 GIVING E13 ROUNDED
           DISPLAY "370 [" E13 "]"
           MULTIPLY A3 BY A5 GIVING E14 ROUNDED
           DISPLAY "371 [" E14 "]"
           MULTIPLY A3 BY A5 GIVING E15 ROUNDED
           DISPLAY "372 [" E15 "]"
           MULTIPLY A3 BY A5 GIVING E16 ROUNDED
           DISPLAY "373 [" E16 "]"
           MULTIPLY A3 BY A5 GIVING E17 ROUNDED
           DISPLAY "374 [" E17 "]"
           DIVIDE A3 BY 7 GIVING E1
           DISPLAY "375 [" E1 "]"
           DIVIDE A3 BY 7 GIVING E2
           DISPLAY "376 [" E2 "]"
           DIVIDE A3 BY 7 GIVING E3
           DISPLAY "377 [" E3 "]"
           DIVIDE A3 BY 7 GIVING E4
           DISPLAY "378 [" E4 "]"
           DIVIDE A3 BY 7 GIVING E5
           DISPLAY "379 [" E5 "]"
           DIVIDE A3 BY 7 GIVING E6
           DISPLAY "380 [" E6 "]"
           DIVIDE A3 BY 7 GIVING E7
           DISPLAY "381 [" E7 "]"
           DIVIDE A3 BY 7 GIVING E8
           DISPLAY "382 [" E8 "]"
           DIVIDE A3 BY 7 GIVING E9
           DISPLAY "383 [" E9 "]"
           DIVIDE A3 BY 7 GIVING E10
           DISPLAY "384 [" E10 "]"
           DIVIDE A3 BY 7 GIVING E11
           DISPLAY "385 [" E11 "]"
           DIVIDE A3 BY 7 GIVING E12
           DISPLAY "386 [" E12 "]"
           DIVIDE A3 BY 7 GIVING E13
           DISPLAY "387 [" E13 "]"
           DIVIDE A3 BY 7 GIVING E14
           DISPLAY "388 [" E14 "]"
           DIVIDE A3 BY 7 GIVING E15
           DISPLAY "389 [" E15 "]"
           DIVIDE A3 BY 7 GIVING E16
           DISPLAY "390 [" E16 "]"
           DIVIDE A3 BY 7 GIVING E17
           DISPLAY "391 [" E17 "]"
           COMPUTE E1 ROUNDED = A3 / 3 + A6
           DISPLAY "392 [" E1 "]"
           COMPUTE E2 ROUNDED = A3 / 3 + A6
           DISPLAY "393 [" E2 "]"
           COMPUTE E3 ROUNDED = A3 / 3 + A6
           DISPLAY "394 [" E3 "]"
           COMPUTE E4 ROUNDED = A3 / 3 + A6
           DISPLAY "395 [" E4 "]"
           COMPUTE E5 ROUNDED = A3 / 3 + A6
           DISPLAY "396 [" E5 "]"
           COMPUTE E6 ROUNDED = A3 / 3 + A6
           DISPLAY "397 [" E6 "]"
           COMPUTE E7 ROUNDED = A3 / 3 + A6
           DISPLAY "398 [" E7 "]"
           COMPUTE E8 ROUNDED = A3 / 3 + A6
           DISPLAY "399 [" E8 "]"
           COMPUTE E9 ROUNDED = A3 / 3 + A6
           DISPLAY "400 [" E9 "]"
           COMPUTE E10 ROUNDED = A3 / 3 + A6
           DISPLAY "401 [" E10 "]"
           COMPUTE E11 ROUNDED = A3 / 3 + A6
           DISPLAY "402 [" E11 "]"
           COMPUTE E12 ROUNDED = A3 / 3 + A6
           DISPLAY "403 [" E12 "]"
           COMPUTE E13 ROUNDED = A3 / 3 + A6
           DISPLAY "404 [" E13 "]"
           COMPUTE E14 ROUNDED = A3 / 3 + A6
           DISPLAY "405 [" E14 "]"
           COMPUTE E15 ROUNDED = A3 / 3 + A6
           DISPLAY "406 [" E15 "]"
           COMPUTE E16 ROUNDED = A3 / 3 + A6
           DISPLAY "407 [" E16 "]"
           COMPUTE E17 ROUNDED = A3 / 3 + A6
           DISPLAY "408 [" E17 "]"
           STOP RUN.
