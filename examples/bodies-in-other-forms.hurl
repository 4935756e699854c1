# Keys in any order, with spaces and escapes; of a key that comes twice the last value is taken.
# after: opening/plan.hurl opening/callers.hurl opening/memos.hurl

POST {{base}}/office/day
Bsp-Token: officetoken00001
{"day":5,"day":"2024-01-05"}
HTTP 200
{"result":"held"}

POST {{base}}/office/day
Bsp-Token: officetoken00001
{"d\u0061y":"2024-01-05"}
HTTP 200
{"result":"held"}

POST {{base}}/office/agents
Bsp-Token: officetoken00001
{"token":"agenttoken000001","agent":"12345675"}
HTTP 200
{"result":"held"}

POST {{base}}/office/agents
Bsp-Token: officetoken00001
{"token":"agenttoken000001","agent":"12345674"}
HTTP 409
{"code":"N05"}

POST {{base}}/office/airlines
Bsp-Token: officetoken00001
{"token":"airlinetoken0125","airline":"125"}
HTTP 200
{"result":"held"}

POST {{base}}/office/stock/allot
Bsp-Token: officetoken00001
{"last":"1300000099","first":"1300000000","agent":"12345675"}
HTTP 200
{"result":"held"}

POST {{base}}/office/stock/withdraw
Bsp-Token: officetoken00001
{"last":"1300000000","first":"1300000099","agent":"12345674"}
HTTP 409
{"code":"K01"}

POST {{base}}/office/close
Bsp-Token: officetoken00001
{"period":"24012","period":"24011"}
HTTP 409
{"code":"P07"}

POST {{base}}/agents/12345675/memos/dispute
Bsp-Token: agenttoken000001
{"document":"6000\u003000001","airline":"125"}
HTTP 200
{"result":"done"}

POST {{base}}/agents/12345675/memos/agree
Bsp-Token: agenttoken000001
{"document":"6000000002","airline":"125"}
HTTP 200
{"result":"done"}

POST {{base}}/airlines/125/memos
Bsp-Token: airlinetoken0125
{"reason":"fare","kind":"ADMA","document":"6000000001","amount":5000,"agent":"12345675"}
HTTP 200
{"result":"held"}

POST {{base}}/airlines/125/memos
Bsp-Token: airlinetoken0125
{"agent":"12345674","amount":-1,"document":"0000000000","kind":"ACMA","reason":" ~\"\\"}
HTTP 409
{"code":"M08"}

# Amounts of 64 bits with a sign are no malformed bodies.
POST {{base}}/airlines/125/memos/reduce
Bsp-Token: airlinetoken0125
{"amount":9223372036854775807,"document":"6000000001"}
HTTP 409
{"code":"M04"}

POST {{base}}/airlines/125/memos/reduce
Bsp-Token: airlinetoken0125
{"amount":-9223372036854775808,"document":"6000000001"}
HTTP 409
{"code":"M04"}

POST {{base}}/airlines/125/memos/reduce
Bsp-Token: airlinetoken0125
{"amount":"1","amount":0,"document":"6000000001"}
HTTP 409
{"code":"M04"}

POST {{base}}/airlines/125/memos/reduce
Bsp-Token: airlinetoken0125
{"document":"6000000001","amount":0,"amount":3000}
HTTP 200
{"result":"done"}

POST {{base}}/airlines/125/memos/uphold
Bsp-Token: airlinetoken0125
{"document":"6000\u003000001"}
HTTP 409
{"code":"M03"}

POST {{base}}/airlines/125/memos/withdraw
Bsp-Token: airlinetoken0125
{"document":"6000\u003000002"}
HTTP 409
{"code":"M03"}

# Spaces, a tab, CR and LF between all parts.
POST {{base}}/office/day
Bsp-Token: officetoken00001
hex,207b092264617922203a0d0a22323032342d30322d3239227d20;
HTTP 200
{"result":"done"}
