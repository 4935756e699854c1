# The largest commission, with a tax of all of it: the net is below zero.
# after: opening/plan-with-whole.hurl opening/callers.hurl
#
# The largest commission with a tax of 100.00 %: the net is below zero, and a refund gives all back.

# A sale by card, and one in cash.
POST {{base}}/agents/12345675/ret
Bsp-Token: agenttoken000001
file,examples/files/largest-sales.ret;
HTTP 200
{"results":[{"n":1,"period":"24011","verdict":"accepted"},{"n":2,"period":"24011","verdict":"accepted"}]}

GET {{base}}/agents/12345675/periods/24011
Bsp-Token: agenttoken000001
HTTP 200
{"closed":false,"documents":2,"net":"-2999999999.97","period":"24011"}

POST {{base}}/office/day
Bsp-Token: officetoken00001
{"day":"2024-01-16"}
HTTP 200
{"result":"done"}

POST {{base}}/office/close
Bsp-Token: officetoken00001
{"period":"24011"}
HTTP 200
{"result":"done"}

GET {{base}}/agents/12345675/statements/24011
Bsp-Token: agenttoken000001
HTTP 200
```
STATEMENT 12345675 PERIOD 24011 REMIT 2024-02-15 EUR
AIR    DOCS            CASH          CREDIT      COMMISSION  COMMISSION TAX           MEMOS             NET
125       2    999999999.99    999999999.99   1999999999.98   1999999999.98            0.00  -2999999999.97
TOT       2    999999999.99    999999999.99   1999999999.98   1999999999.98            0.00  -2999999999.97
```

GET {{base}}/office/settlement/24011
Bsp-Token: officetoken00001
HTTP 200
```
SETTLEMENT PERIOD 24011 REMIT 2024-02-15 EUR
AGENT   12345675  -2999999999.97
TOTAL   AGENTS    -2999999999.97
AIRLINE 125       -2999999999.97
TOTAL   AIRLINES  -2999999999.97
```

GET {{base}}/airlines/125/hot/24011
Bsp-Token: airlinetoken0125
HTTP 200
file,examples/files/125-24011-largest.hot;

# A refund of the first gives all of it back in the next period.
POST {{base}}/agents/12345675/ret
Bsp-Token: agenttoken000001
file,examples/files/largest-refund.ret;
HTTP 200
{"results":[{"n":1,"period":"24012","verdict":"accepted"}]}

GET {{base}}/agents/12345675/periods/24012
Bsp-Token: agenttoken000001
HTTP 200
{"closed":false,"documents":1,"net":"1999999999.98","period":"24012"}
