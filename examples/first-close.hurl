# An office's first close: a sale, the statement, the settlement and the HOT file.
# after: opening/plan.hurl opening/callers.hurl
#
# A first close over V1 alone: statement, settlement and HOT file have the net 225.00.

GET {{base}}/agents/76543213/periods/24011
Bsp-Token: agenttoken000001
HTTP 403
{"code":"N01"}

POST {{base}}/agents/12345675/ret
Bsp-Token: agenttoken000001
file,samples/sale.ret;
HTTP 200
{"results":[{"n":1,"period":"24011","verdict":"accepted"}]}

GET {{base}}/office/settlement/24011
Bsp-Token: officetoken00001
HTTP 409
{"code":"S01"}

POST {{base}}/office/day
Bsp-Token: officetoken00001
{"day":"2024-01-16"}
HTTP 200
{"result":"done"}

POST {{base}}/office/close
Bsp-Token: officetoken00001
{"period":"24011"}
HTTP 200
{"result":"done"}

GET {{base}}/agents/12345675/statements/24011
Bsp-Token: agenttoken000001
HTTP 200
```
STATEMENT 12345675 PERIOD 24011 REMIT 2024-02-15 EUR
AIR    DOCS            CASH          CREDIT      COMMISSION           MEMOS             NET
125       1          235.00            0.00           10.00            0.00          225.00
TOT       1          235.00            0.00           10.00            0.00          225.00
```

GET {{base}}/office/settlement/24011
Bsp-Token: officetoken00001
HTTP 200
```
SETTLEMENT PERIOD 24011 REMIT 2024-02-15 EUR
AGENT   12345675          225.00
TOTAL   AGENTS            225.00
AIRLINE 125               225.00
TOTAL   AIRLINES          225.00
```

GET {{base}}/airlines/125/hot/24011
Bsp-Token: airlinetoken0125
HTTP 200
file,examples/files/125-24011-sale.hot;
