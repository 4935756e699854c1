# What is cancelled, of another period or not billed is in no statement and no settlement.
# after: opening/plan.hurl opening/callers.hurl

POST {{base}}/agents/12345675/ret
Bsp-Token: agenttoken000001
file,samples/sale.ret;
HTTP 200
{"results":[{"n":1,"period":"24011","verdict":"accepted"}]}

POST {{base}}/agents/12345675/ret
Bsp-Token: agenttoken000001
file,samples/card-sale.ret;
HTTP 200
{"results":[{"n":1,"period":"24011","verdict":"accepted"}]}

# A cancelled sale; memos that are open, disputed and withdrawn.
POST {{base}}/agents/12345675/ret
Bsp-Token: agenttoken000001
file,examples/files/sale-of-5.ret;
HTTP 200
{"results":[{"n":1,"period":"24011","verdict":"accepted"}]}

POST {{base}}/agents/12345675/ret
Bsp-Token: agenttoken000001
file,examples/files/canx-of-5.ret;
HTTP 200
{"results":[{"n":1,"period":"24011","verdict":"accepted"}]}

POST {{base}}/airlines/220/memos
Bsp-Token: airlinetoken0220
{"agent":"12345675","amount":3000,"document":"7000000001","kind":"ADMA","reason":"fare"}
HTTP 200
{"result":"done"}

POST {{base}}/agents/12345675/memos/agree
Bsp-Token: agenttoken000001
{"airline":"220","document":"7000000001"}
HTTP 200
{"result":"done"}

POST {{base}}/airlines/220/memos
Bsp-Token: airlinetoken0220
{"agent":"12345675","amount":700,"document":"7000000002","kind":"ADMA","reason":"fare"}
HTTP 200
{"result":"done"}

POST {{base}}/airlines/220/memos
Bsp-Token: airlinetoken0220
{"agent":"12345675","amount":800,"document":"7000000003","kind":"ADMA","reason":"fare"}
HTTP 200
{"result":"done"}

POST {{base}}/agents/12345675/memos/dispute
Bsp-Token: agenttoken000001
{"airline":"220","document":"7000000003"}
HTTP 200
{"result":"done"}

POST {{base}}/airlines/220/memos
Bsp-Token: airlinetoken0220
{"agent":"12345675","amount":900,"document":"7000000004","kind":"ADMA","reason":"fare"}
HTTP 200
{"result":"done"}

POST {{base}}/airlines/220/memos/withdraw
Bsp-Token: airlinetoken0220
{"document":"7000000004"}
HTTP 200
{"result":"done"}

POST {{base}}/airlines/125/memos
Bsp-Token: airlinetoken0125
{"agent":"76543213","amount":5000,"document":"6000000001","kind":"ACMA","reason":"fare"}
HTTP 200
{"result":"done"}

POST {{base}}/office/day
Bsp-Token: officetoken00001
{"day":"2024-01-16"}
HTTP 200
{"result":"done"}

POST {{base}}/office/close
Bsp-Token: officetoken00001
{"period":"24011"}
HTTP 200
{"result":"done"}

# Sales of the next period, and a memo that is issued after the close.
POST {{base}}/agents/12345675/ret
Bsp-Token: agenttoken000001
file,examples/files/three-days.ret;
HTTP 200
{"results":[{"n":1,"period":"24012","verdict":"accepted"},{"n":2,"period":"24012","verdict":"accepted"},{"n":3,"verdict":"E04"}]}

POST {{base}}/airlines/125/memos
Bsp-Token: airlinetoken0125
{"agent":"76543213","amount":5000,"document":"6000000002","kind":"ACMA","reason":"fare"}
HTTP 200
{"result":"done"}

GET {{base}}/agents/12345675/statements/24011
Bsp-Token: agenttoken000001
HTTP 200
```
STATEMENT 12345675 PERIOD 24011 REMIT 2024-02-15 EUR
AIR    DOCS            CASH          CREDIT      COMMISSION           MEMOS             NET
125       1          235.00            0.00           10.00            0.00          225.00
220       1            0.00          100.00            0.00           30.00           30.00
TOT       2          235.00          100.00           10.00           30.00          255.00
```

GET {{base}}/agents/76543213/statements/24011
Bsp-Token: agenttoken000002
HTTP 200
```
STATEMENT 76543213 PERIOD 24011 REMIT 2024-02-15 EUR
AIR    DOCS            CASH          CREDIT      COMMISSION           MEMOS             NET
125       0            0.00            0.00            0.00          -50.00          -50.00
TOT       0            0.00            0.00            0.00          -50.00          -50.00
```

GET {{base}}/office/settlement/24011
Bsp-Token: officetoken00001
HTTP 200
```
SETTLEMENT PERIOD 24011 REMIT 2024-02-15 EUR
AGENT   12345675          255.00
AGENT   76543213          -50.00
TOTAL   AGENTS            205.00
AIRLINE 125               175.00
AIRLINE 220                30.00
TOTAL   AIRLINES          205.00
```

# The next period has these sales and memos, but for those that are disputed or withdrawn.
POST {{base}}/office/day
Bsp-Token: officetoken00001
{"day":"2024-02-01"}
HTTP 200
{"result":"done"}

POST {{base}}/office/close
Bsp-Token: officetoken00001
{"period":"24012"}
HTTP 200
{"result":"done"}

GET {{base}}/agents/12345675/statements/24012
Bsp-Token: agenttoken000001
HTTP 200
```
STATEMENT 12345675 PERIOD 24012 REMIT 2024-02-29 EUR
AIR    DOCS            CASH          CREDIT      COMMISSION           MEMOS             NET
125       2          470.00            0.00           10.00            0.00          460.00
220       0            0.00            0.00            0.00            7.00            7.00
TOT       2          470.00            0.00           10.00            7.00          467.00
```

GET {{base}}/agents/76543213/statements/24012
Bsp-Token: agenttoken000002
HTTP 200
```
STATEMENT 76543213 PERIOD 24012 REMIT 2024-02-29 EUR
AIR    DOCS            CASH          CREDIT      COMMISSION           MEMOS             NET
125       0            0.00            0.00            0.00          -50.00          -50.00
TOT       0            0.00            0.00            0.00          -50.00          -50.00
```

GET {{base}}/office/settlement/24012
Bsp-Token: officetoken00001
HTTP 200
```
SETTLEMENT PERIOD 24012 REMIT 2024-02-29 EUR
AGENT   12345675          467.00
AGENT   76543213          -50.00
TOTAL   AGENTS            417.00
AIRLINE 125               410.00
AIRLINE 220                 7.00
TOTAL   AIRLINES          417.00
```
