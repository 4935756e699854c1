# Example 50: a tax on commission begins, and with it the reports of form 2.
# after: opening/plan-with-tax.hurl opening/callers.hurl
# after: opening/plan.hurl opening/callers.hurl opening/tax.hurl
#
# PL with a tax on commission of 1900 from 2024-01-16 on. V1 is sold, and 24011 is closed on 2024-01-16: its statement
# and its HOT file are of form 1. On that day A sells 1300000010-1, issued on 2024-01-16, with V1's amounts: the tax
# is 190 and the net 22310. On 2024-02-01 24012 is closed: its statement has the column COMMISSION TAX, and the HOT
# file of 125 is V4 with 13 records. The tax is added on 2024-01-05, or is published with PL: all replies are the
# same. (`checks.txt`, `hotcheck TAXED`, which is V4; `tests/program/test_statuses.py`.)

POST {{base}}/agents/12345675/ret
Bsp-Token: agenttoken000001
file,samples/sale.ret;
HTTP 200
{"results":[{"n":1,"period":"24011","verdict":"accepted"}]}

POST {{base}}/office/day
Bsp-Token: officetoken00001
{"day":"2024-01-16"}
HTTP 200
{"result":"done"}

POST {{base}}/office/close
Bsp-Token: officetoken00001
{"period":"24011"}
HTTP 200
{"result":"done"}

# The first period ended before the tax began.
GET {{base}}/agents/12345675/statements/24011
Bsp-Token: agenttoken000001
HTTP 200
```
STATEMENT 12345675 PERIOD 24011 REMIT 2024-02-15 EUR
AIR    DOCS            CASH          CREDIT      COMMISSION           MEMOS             NET
125       1          235.00            0.00           10.00            0.00          225.00
TOT       1          235.00            0.00           10.00            0.00          225.00
```

GET {{base}}/airlines/125/hot/24011
Bsp-Token: airlinetoken0125
HTTP 200
file,examples/files/125-24011-sale.hot;

POST {{base}}/agents/12345675/ret
Bsp-Token: agenttoken000001
file,examples/files/sale-of-10.ret;
HTTP 200
{"results":[{"n":1,"period":"24012","verdict":"accepted"}]}

POST {{base}}/agents/12345675/ret
Bsp-Token: agenttoken000001
file,examples/files/sale-of-10.ret;
HTTP 200
{"results":[{"n":1,"period":"24012","verdict":"held"}]}

# A document does not show the tax, a period has the net less the tax.
GET {{base}}/agents/12345675/documents/1300000010
Bsp-Token: agenttoken000001
HTTP 200
{"airline":"125","cash":23500,"code":"TKTT","commission":1000,"credit":0,"issued":"2024-01-16","period":"24012","state":"alive"}

GET {{base}}/agents/12345675/periods/24012
Bsp-Token: agenttoken000001
HTTP 200
{"closed":false,"documents":1,"net":"223.10","period":"24012"}

POST {{base}}/office/day
Bsp-Token: officetoken00001
{"day":"2024-02-01"}
HTTP 200
{"result":"done"}

POST {{base}}/office/close
Bsp-Token: officetoken00001
{"period":"24012"}
HTTP 200
{"result":"done"}

GET {{base}}/agents/12345675/periods/24012
Bsp-Token: agenttoken000001
HTTP 200
{"closed":true,"documents":1,"net":"223.10","period":"24012"}

GET {{base}}/agents/12345675/statements/24012
Bsp-Token: agenttoken000001
HTTP 200
```
STATEMENT 12345675 PERIOD 24012 REMIT 2024-02-29 EUR
AIR    DOCS            CASH          CREDIT      COMMISSION  COMMISSION TAX           MEMOS             NET
125       1          235.00            0.00           10.00            1.90            0.00          223.10
TOT       1          235.00            0.00           10.00            1.90            0.00          223.10
```

GET {{base}}/agents/76543213/statements/24012
Bsp-Token: agenttoken000002
HTTP 200
```
STATEMENT 76543213 PERIOD 24012 REMIT 2024-02-29 EUR
AIR    DOCS            CASH          CREDIT      COMMISSION  COMMISSION TAX           MEMOS             NET
TOT       0            0.00            0.00            0.00            0.00            0.00            0.00
```

GET {{base}}/office/settlement/24012
Bsp-Token: officetoken00001
HTTP 200
```
SETTLEMENT PERIOD 24012 REMIT 2024-02-29 EUR
AGENT   12345675          223.10
TOTAL   AGENTS            223.10
AIRLINE 125               223.10
TOTAL   AIRLINES          223.10
```

GET {{base}}/airlines/125/hot/24012
Bsp-Token: airlinetoken0125
HTTP 200
file,samples/commission-tax.hot;

GET {{base}}/airlines/220/hot/24012
Bsp-Token: airlinetoken0220
HTTP 200
file,examples/files/220-24012-form-2.hot;

# The reports of the first period are as they were.
GET {{base}}/agents/12345675/statements/24011
Bsp-Token: agenttoken000001
HTTP 200
```
STATEMENT 12345675 PERIOD 24011 REMIT 2024-02-15 EUR
AIR    DOCS            CASH          CREDIT      COMMISSION           MEMOS             NET
125       1          235.00            0.00           10.00            0.00          225.00
TOT       1          235.00            0.00           10.00            0.00          225.00
```

GET {{base}}/airlines/125/hot/24011
Bsp-Token: airlinetoken0125
HTTP 200
file,examples/files/125-24011-sale.hot;

POST {{base}}/agents/12345675/ret
Bsp-Token: agenttoken000001
file,samples/sale.ret;
HTTP 200
{"results":[{"n":1,"period":"24011","verdict":"held"}]}
