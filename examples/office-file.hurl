# The office reports for both agents in one file. Each has what was accepted for it, and repeats are held.
# after: opening/plan.hurl opening/callers.hurl

POST {{base}}/office/ret
Bsp-Token: agenttoken000001
file,examples/files/of-both.ret;
HTTP 403
{"code":"N01"}

POST {{base}}/office/ret
Bsp-Token: officetoken00001
file,examples/files/sale-cut.ret;
HTTP 422
{"code":"F01","record":5}

# The third is of 12345686, who is not registered, and in the seventh B sells a number of A's.
POST {{base}}/office/ret
Bsp-Token: officetoken00001
file,examples/files/of-both.ret;
HTTP 200
{"results":[{"n":1,"period":"24011","verdict":"accepted"},{"n":2,"period":"24011","verdict":"accepted"},{"n":3,"verdict":"E02"},{"n":4,"period":"24011","verdict":"accepted"},{"n":5,"period":"24011","verdict":"accepted"},{"n":6,"period":"24011","verdict":"accepted"},{"n":7,"verdict":"E05"},{"n":8,"period":"24011","verdict":"held"},{"n":9,"period":"24011","verdict":"accepted"}]}

POST {{base}}/office/ret
Bsp-Token: officetoken00001
file,examples/files/of-both.ret;
HTTP 200
{"results":[{"n":1,"period":"24011","verdict":"held"},{"n":2,"period":"24011","verdict":"held"},{"n":3,"verdict":"E02"},{"n":4,"period":"24011","verdict":"held"},{"n":5,"period":"24011","verdict":"held"},{"n":6,"period":"24011","verdict":"held"},{"n":7,"verdict":"E05"},{"n":8,"period":"24011","verdict":"held"},{"n":9,"period":"24011","verdict":"held"}]}

POST {{base}}/agents/12345675/ret
Bsp-Token: agenttoken000001
file,examples/files/of-both.ret;
HTTP 200
{"results":[{"n":1,"period":"24011","verdict":"held"},{"n":2,"verdict":"E02"},{"n":3,"verdict":"E02"},{"n":4,"period":"24011","verdict":"held"},{"n":5,"period":"24011","verdict":"held"},{"n":6,"verdict":"E02"},{"n":7,"verdict":"E02"},{"n":8,"period":"24011","verdict":"held"},{"n":9,"period":"24011","verdict":"held"}]}

POST {{base}}/agents/76543213/ret
Bsp-Token: agenttoken000002
file,examples/files/of-both.ret;
HTTP 200
{"results":[{"n":1,"verdict":"E02"},{"n":2,"period":"24011","verdict":"held"},{"n":3,"verdict":"E02"},{"n":4,"verdict":"E02"},{"n":5,"verdict":"E02"},{"n":6,"period":"24011","verdict":"held"},{"n":7,"verdict":"E05"},{"n":8,"verdict":"E02"},{"n":9,"verdict":"E02"}]}

GET {{base}}/agents/12345675/documents/1300000001
Bsp-Token: agenttoken000001
HTTP 200
{"airline":"125","cash":23500,"code":"TKTT","commission":1000,"credit":0,"issued":"2024-01-05","period":"24011","state":"exchanged"}

GET {{base}}/agents/12345675/documents/1300000002
Bsp-Token: agenttoken000001
HTTP 200
{"airline":"125","cash":23500,"code":"TKTT","commission":1000,"credit":0,"issued":"2024-01-05","period":"24011","state":"refunded"}

GET {{base}}/agents/12345675/documents/1300000003
Bsp-Token: agenttoken000001
HTTP 200
{"airline":"125","cash":5000,"code":"TKTT","commission":250,"credit":0,"issued":"2024-01-05","period":"24011","state":"alive"}

GET {{base}}/agents/12345675/documents/1300000004
Bsp-Token: agenttoken000001
HTTP 200
{"airline":"125","cash":-23500,"code":"RFND","commission":-1000,"credit":0,"issued":"2024-01-05","period":"24011","state":"alive"}

GET {{base}}/agents/12345675/documents/1300000005
Bsp-Token: agenttoken000001
HTTP 404
{"code":"D01"}

GET {{base}}/agents/76543213/documents/1400000000
Bsp-Token: agenttoken000002
HTTP 200
{"airline":"125","cash":23500,"code":"TKTT","commission":1000,"credit":0,"issued":"2024-01-05","period":"24011","state":"cancelled"}

GET {{base}}/agents/12345675/stock
Bsp-Token: agenttoken000001
HTTP 200
{"ranges":[{"first":"1300000000","last":"1300000099","used":4}]}

GET {{base}}/agents/76543213/stock
Bsp-Token: agenttoken000002
HTTP 200
{"ranges":[{"first":"1400000000","last":"1400000099","used":1}]}

GET {{base}}/agents/12345675/periods/24011
Bsp-Token: agenttoken000001
HTTP 200
{"closed":false,"documents":4,"net":"272.50","period":"24011"}

GET {{base}}/agents/76543213/periods/24011
Bsp-Token: agenttoken000002
HTTP 200
{"closed":false,"documents":0,"net":"0.00","period":"24011"}

POST {{base}}/office/day
Bsp-Token: officetoken00001
{"day":"2024-01-16"}
HTTP 200
{"result":"done"}

POST {{base}}/office/close
Bsp-Token: officetoken00001
{"period":"24011"}
HTTP 200
{"result":"done"}

# A closed period takes nothing more.
POST {{base}}/office/ret
Bsp-Token: officetoken00001
file,examples/files/canx-of-3.ret;
HTTP 200
{"results":[{"n":1,"verdict":"E09"}]}

GET {{base}}/agents/12345675/statements/24011
Bsp-Token: agenttoken000001
HTTP 200
```
STATEMENT 12345675 PERIOD 24011 REMIT 2024-02-15 EUR
AIR    DOCS            CASH          CREDIT      COMMISSION           MEMOS             NET
125       4          285.00            0.00           12.50            0.00          272.50
TOT       4          285.00            0.00           12.50            0.00          272.50
```

GET {{base}}/agents/76543213/statements/24011
Bsp-Token: agenttoken000002
HTTP 200
```
STATEMENT 76543213 PERIOD 24011 REMIT 2024-02-15 EUR
AIR    DOCS            CASH          CREDIT      COMMISSION           MEMOS             NET
TOT       0            0.00            0.00            0.00            0.00            0.00
```

GET {{base}}/office/settlement/24011
Bsp-Token: officetoken00001
HTTP 200
```
SETTLEMENT PERIOD 24011 REMIT 2024-02-15 EUR
AGENT   12345675          272.50
TOTAL   AGENTS            272.50
AIRLINE 125               272.50
TOTAL   AIRLINES          272.50
```
