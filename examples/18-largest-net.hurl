# Example 18: the HOT file over 10,000 memos of the largest amount has the largest net; that of one more has none.
# after: opening/plan-limit-20000.hurl opening/callers.hurl
#
# The HOT file over 10,000 billed debit memos of 99999999999 has a net of 999999999990000; over 10,001 it is H01. The
# statement has such sums whole.

# each number: 0000000000 to 0000009999
POST {{base}}/airlines/125/memos
Bsp-Token: airlinetoken0125
{"agent":"12345675","amount":99999999999,"document":"{{number}}","kind":"ADMA","reason":"fare"}
HTTP 200
{"result":"done"}

# One more.
# each number: 0000000000 to 0000010000
POST {{base}}/airlines/220/memos
Bsp-Token: airlinetoken0220
{"agent":"12345675","amount":99999999999,"document":"{{number}}","kind":"ADMA","reason":"fare"}
HTTP 200
{"result":"done"}

POST {{base}}/office/day
Bsp-Token: officetoken00001
{"day":"2024-02-01"}
HTTP 200
{"result":"done"}

POST {{base}}/office/close
Bsp-Token: officetoken00001
{"period":"24011"}
HTTP 200
{"result":"done"}

# The last record, with 10,000 documents, cash and a net of 9,999,999,999,900.00.
GET {{base}}/airlines/125/hot/24011
Bsp-Token: airlinetoken0125
HTTP 200
[Asserts]
body endsWith "BFT0004000799125000400070001000099999999999000{00000000000000{00000000000000{99999999999000{                                            \n"

GET {{base}}/airlines/220/hot/24011
Bsp-Token: airlinetoken0220
HTTP 409
{"code":"H01"}

# A sum that is wider than its place is whole.
GET {{base}}/agents/12345675/statements/24011
Bsp-Token: agenttoken000001
HTTP 200
```
STATEMENT 12345675 PERIOD 24011 REMIT 2024-02-15 EUR
AIR    DOCS            CASH          CREDIT      COMMISSION           MEMOS             NET
125       0            0.00            0.00            0.009999999999900.009999999999900.00
220       0            0.00            0.00            0.0010000999999899.9910000999999899.99
TOT       0            0.00            0.00            0.0020000999999799.9920000999999799.99
```
