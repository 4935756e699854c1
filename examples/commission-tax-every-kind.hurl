# Each kind of document in reports of form 2, of two agents and two airlines.
# after: opening/plan-with-tax.hurl opening/callers.hurl
#
# The reports have an exchange of two tickets, too. (Also `checks.txt`: `hotcheck TAXED_KINDS`, `hotcheck
# DOUBLE_TAXED`.)

POST {{base}}/agents/12345675/ret
Bsp-Token: agenttoken000001
file,samples/sale.ret;
HTTP 200
{"results":[{"n":1,"period":"24011","verdict":"accepted"}]}

POST {{base}}/office/day
Bsp-Token: officetoken00001
{"day":"2024-01-16"}
HTTP 200
{"result":"done"}

POST {{base}}/office/close
Bsp-Token: officetoken00001
{"period":"24011"}
HTTP 200
{"result":"done"}

# Three sales, the exchange of two of them, two refunds, a sale by cash and card, a cancelled sale, one of 220 by card.
POST {{base}}/agents/12345675/ret
Bsp-Token: agenttoken000001
file,examples/files/taxed-kinds.ret;
HTTP 200
{"results":[{"n":1,"period":"24012","verdict":"accepted"},{"n":2,"period":"24012","verdict":"accepted"},{"n":3,"period":"24012","verdict":"accepted"},{"n":4,"period":"24012","verdict":"accepted"},{"n":5,"period":"24012","verdict":"accepted"},{"n":6,"period":"24012","verdict":"accepted"},{"n":7,"period":"24012","verdict":"accepted"},{"n":8,"period":"24012","verdict":"accepted"},{"n":9,"period":"24012","verdict":"accepted"},{"n":10,"period":"24012","verdict":"accepted"}]}

POST {{base}}/agents/76543213/ret
Bsp-Token: agenttoken000002
file,examples/files/taxed-sale-of-b.ret;
HTTP 200
{"results":[{"n":1,"period":"24012","verdict":"accepted"}]}

POST {{base}}/airlines/125/memos
Bsp-Token: airlinetoken0125
{"agent":"12345675","amount":3000,"document":"6000000001","kind":"ADMA","reason":"fare"}
HTTP 200
{"result":"done"}

POST {{base}}/airlines/125/memos
Bsp-Token: airlinetoken0125
{"agent":"12345675","amount":100,"document":"6000000003","kind":"ACMA","reason":"fare"}
HTTP 200
{"result":"done"}

GET {{base}}/agents/12345675/periods/24012
Bsp-Token: agenttoken000001
HTTP 200
{"closed":false,"documents":8,"net":"456.32","period":"24012"}

POST {{base}}/office/day
Bsp-Token: officetoken00001
{"day":"2024-02-01"}
HTTP 200
{"result":"done"}

POST {{base}}/office/close
Bsp-Token: officetoken00001
{"period":"24012"}
HTTP 200
{"result":"done"}

GET {{base}}/agents/12345675/periods/24012
Bsp-Token: agenttoken000001
HTTP 200
{"closed":true,"documents":8,"net":"485.32","period":"24012"}

GET {{base}}/agents/12345675/statements/24012
Bsp-Token: agenttoken000001
HTTP 200
```
STATEMENT 12345675 PERIOD 24012 REMIT 2024-02-29 EUR
AIR    DOCS            CASH          CREDIT      COMMISSION  COMMISSION TAX           MEMOS             NET
125       7          485.00           35.11           22.50            6.18           29.00          485.32
220       1            0.00          100.00            0.00            0.00            0.00            0.00
TOT       8          485.00          135.11           22.50            6.18           29.00          485.32
```

GET {{base}}/agents/76543213/statements/24012
Bsp-Token: agenttoken000002
HTTP 200
```
STATEMENT 76543213 PERIOD 24012 REMIT 2024-02-29 EUR
AIR    DOCS            CASH          CREDIT      COMMISSION  COMMISSION TAX           MEMOS             NET
125       1          235.00            0.00           10.00            1.90            0.00          223.10
TOT       1          235.00            0.00           10.00            1.90            0.00          223.10
```

GET {{base}}/office/settlement/24012
Bsp-Token: officetoken00001
HTTP 200
```
SETTLEMENT PERIOD 24012 REMIT 2024-02-29 EUR
AGENT   12345675          485.32
AGENT   76543213          223.10
TOTAL   AGENTS            708.42
AIRLINE 125               708.42
AIRLINE 220                 0.00
TOTAL   AIRLINES          708.42
```

GET {{base}}/airlines/125/hot/24012
Bsp-Token: airlinetoken0125
HTTP 200
file,examples/files/125-taxed-kinds.hot;

GET {{base}}/airlines/220/hot/24012
Bsp-Token: airlinetoken0220
HTTP 200
file,examples/files/220-taxed-kinds.hot;
