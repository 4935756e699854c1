# An agent's first report: a sale, then a sale, an exchange and a refund in one file, a memo, and the statement.
# after: opening/plan.hurl opening/callers.hurl
#
# An agent's first report, V1, and then `samples/first-report.ret`: a sale, an exchange of V1's ticket and a refund of
# the sale are accepted. The net is 272.50, and with a memo of 30.00 it is 302.50.

POST {{base}}/agents/12345675/ret
Bsp-Token: agenttoken000001
file,samples/sale.ret;
HTTP 200
{"results":[{"n":1,"period":"24011","verdict":"accepted"}]}

GET {{base}}/agents/12345675/stock
Bsp-Token: agenttoken000001
HTTP 200
{"ranges":[{"first":"1300000000","last":"1300000099","used":1}]}

POST {{base}}/agents/12345675/ret
Bsp-Token: agenttoken000001
file,samples/first-report.ret;
HTTP 200
{"results":[{"n":1,"period":"24011","verdict":"accepted"},{"n":2,"period":"24011","verdict":"accepted"},{"n":3,"period":"24011","verdict":"accepted"}]}

GET {{base}}/agents/12345675/documents/1300000001
Bsp-Token: agenttoken000001
HTTP 200
{"airline":"125","cash":23500,"code":"TKTT","commission":1000,"credit":0,"issued":"2024-01-05","period":"24011","state":"exchanged"}

GET {{base}}/agents/12345675/documents/1300000002
Bsp-Token: agenttoken000001
HTTP 200
{"airline":"125","cash":23500,"code":"TKTT","commission":1000,"credit":0,"issued":"2024-01-05","period":"24011","state":"refunded"}

# Cash 235.00, 235.00, 50.00 and -235.00, less commission 10.00, 10.00, 2.50 and -10.00.
GET {{base}}/agents/12345675/periods/24011
Bsp-Token: agenttoken000001
HTTP 200
{"closed":false,"documents":4,"net":"272.50","period":"24011"}

POST {{base}}/airlines/125/memos
Bsp-Token: airlinetoken0125
{"agent":"12345675","amount":5000,"document":"6000000001","kind":"ADMA","reason":"fare"}
HTTP 200
{"result":"done"}

GET {{base}}/agents/12345675/memos
Bsp-Token: agenttoken000001
HTTP 200
{"memos":[{"agent":"12345675","airline":"125","amount":5000,"billed":null,"document":"6000000001","issued":"2024-01-05","kind":"ADMA","reason":"fare","state":"open"}]}

POST {{base}}/agents/12345675/memos/dispute
Bsp-Token: agenttoken000001
{"airline":"125","document":"6000000001"}
HTTP 200
{"result":"done"}

GET {{base}}/airlines/125/memos
Bsp-Token: airlinetoken0125
HTTP 200
{"memos":[{"agent":"12345675","airline":"125","amount":5000,"billed":null,"document":"6000000001","issued":"2024-01-05","kind":"ADMA","reason":"fare","state":"disputed"}]}

POST {{base}}/airlines/125/memos/reduce
Bsp-Token: airlinetoken0125
{"amount":3000,"document":"6000000001"}
HTTP 200
{"result":"done"}

GET {{base}}/airlines/125/memos
Bsp-Token: airlinetoken0125
HTTP 200
{"memos":[{"agent":"12345675","airline":"125","amount":3000,"billed":null,"document":"6000000001","issued":"2024-01-05","kind":"ADMA","reason":"fare","state":"reduced"}]}

POST {{base}}/office/day
Bsp-Token: officetoken00001
{"day":"2024-01-16"}
HTTP 200
{"result":"done"}

POST {{base}}/office/close
Bsp-Token: officetoken00001
{"period":"24011"}
HTTP 200
{"result":"done"}

GET {{base}}/agents/12345675/statements/24011
Bsp-Token: agenttoken000001
HTTP 200
```
STATEMENT 12345675 PERIOD 24011 REMIT 2024-02-15 EUR
AIR    DOCS            CASH          CREDIT      COMMISSION           MEMOS             NET
125       4          285.00            0.00           12.50           30.00          302.50
TOT       4          285.00            0.00           12.50           30.00          302.50
```
