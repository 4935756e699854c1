# Example 51: a refund has the tax of the earlier of its own day of issue and its ticket's.
# after: opening/plan-with-tax.hurl opening/callers.hurl
#
# In 24012, before its close and issued on 2024-01-16, a refund of the whole ticket 1300000001 has the tax 0, and one
# of 1300000010 the tax -190 at 1900. The latter issued on 2024-01-15 has the tax 0.

POST {{base}}/agents/12345675/ret
Bsp-Token: agenttoken000001
file,samples/sale.ret;
HTTP 200
{"results":[{"n":1,"period":"24011","verdict":"accepted"}]}

POST {{base}}/office/day
Bsp-Token: officetoken00001
{"day":"2024-01-16"}
HTTP 200
{"result":"done"}

POST {{base}}/office/close
Bsp-Token: officetoken00001
{"period":"24011"}
HTTP 200
{"result":"done"}

POST {{base}}/agents/12345675/ret
Bsp-Token: agenttoken000001
file,examples/files/sale-of-10.ret;
HTTP 200
{"results":[{"n":1,"period":"24012","verdict":"accepted"}]}

GET {{base}}/agents/12345675/periods/24012
Bsp-Token: agenttoken000001
HTTP 200
{"closed":false,"documents":1,"net":"223.10","period":"24012"}

# The ticket of the first period had no tax: its refund adds -225.00.
POST {{base}}/agents/12345675/ret
Bsp-Token: agenttoken000001
file,examples/files/refund-of-1-on-16.ret;
HTTP 200
{"results":[{"n":1,"period":"24012","verdict":"accepted"}]}

GET {{base}}/agents/12345675/periods/24012
Bsp-Token: agenttoken000001
HTTP 200
{"closed":false,"documents":2,"net":"-1.90","period":"24012"}

# That of 1300000010 takes the tax back: -223.10.
POST {{base}}/agents/12345675/ret
Bsp-Token: agenttoken000001
file,examples/files/refund-of-10-on-16.ret;
HTTP 200
{"results":[{"n":1,"period":"24012","verdict":"accepted"}]}

GET {{base}}/agents/12345675/periods/24012
Bsp-Token: agenttoken000001
HTTP 200
{"closed":false,"documents":3,"net":"-225.00","period":"24012"}

# In its place one that was issued before the tax began: -225.00.
POST {{base}}/agents/12345675/ret
Bsp-Token: agenttoken000001
file,examples/files/canx-of-12.ret;
HTTP 200
{"results":[{"n":1,"period":"24012","verdict":"accepted"}]}

GET {{base}}/agents/12345675/periods/24012
Bsp-Token: agenttoken000001
HTTP 200
{"closed":false,"documents":2,"net":"-1.90","period":"24012"}

POST {{base}}/agents/12345675/ret
Bsp-Token: agenttoken000001
file,examples/files/refund-of-10-on-15.ret;
HTTP 200
{"results":[{"n":1,"period":"24012","verdict":"accepted"}]}

GET {{base}}/agents/12345675/periods/24012
Bsp-Token: agenttoken000001
HTTP 200
{"closed":false,"documents":3,"net":"-226.90","period":"24012"}

GET {{base}}/agents/12345675/documents/1300000013
Bsp-Token: agenttoken000001
HTTP 200
{"airline":"125","cash":-23500,"code":"RFND","commission":-1000,"credit":0,"issued":"2024-01-15","period":"24012","state":"alive"}

POST {{base}}/agents/76543213/ret
Bsp-Token: agenttoken000002
file,examples/files/sale-and-refund-by-b.ret;
HTTP 200
{"results":[{"n":1,"period":"24012","verdict":"accepted"},{"n":2,"period":"24012","verdict":"accepted"}]}

GET {{base}}/agents/76543213/periods/24012
Bsp-Token: agenttoken000002
HTTP 200
{"closed":false,"documents":2,"net":"0.00","period":"24012"}

POST {{base}}/office/day
Bsp-Token: officetoken00001
{"day":"2024-02-01"}
HTTP 200
{"result":"done"}

POST {{base}}/office/close
Bsp-Token: officetoken00001
{"period":"24012"}
HTTP 200
{"result":"done"}

GET {{base}}/agents/12345675/statements/24012
Bsp-Token: agenttoken000001
HTTP 200
```
STATEMENT 12345675 PERIOD 24012 REMIT 2024-02-29 EUR
AIR    DOCS            CASH          CREDIT      COMMISSION  COMMISSION TAX           MEMOS             NET
125       3         -235.00            0.00          -10.00            1.90            0.00         -226.90
TOT       3         -235.00            0.00          -10.00            1.90            0.00         -226.90
```

GET {{base}}/agents/76543213/statements/24012
Bsp-Token: agenttoken000002
HTTP 200
```
STATEMENT 76543213 PERIOD 24012 REMIT 2024-02-29 EUR
AIR    DOCS            CASH          CREDIT      COMMISSION  COMMISSION TAX           MEMOS             NET
125       2            0.00            0.00            0.00            0.00            0.00            0.00
TOT       2            0.00            0.00            0.00            0.00            0.00            0.00
```

GET {{base}}/office/settlement/24012
Bsp-Token: officetoken00001
HTTP 200
```
SETTLEMENT PERIOD 24012 REMIT 2024-02-29 EUR
AGENT   12345675         -226.90
AGENT   76543213            0.00
TOTAL   AGENTS           -226.90
AIRLINE 125              -226.90
TOTAL   AIRLINES         -226.90
```

GET {{base}}/airlines/125/hot/24012
Bsp-Token: airlinetoken0125
HTTP 200
file,examples/files/125-24012-refunds.hot;
