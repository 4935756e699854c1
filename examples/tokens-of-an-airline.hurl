# Each request of an airline needs its token; nobody has that of an unknown airline.
# after: opening/plan.hurl opening/callers.hurl

GET {{base}}/airlines/125/memos
Bsp-Token: airlinetoken0220
HTTP 403
{"code":"N01"}

POST {{base}}/airlines/125/memos
Bsp-Token: airlinetoken0220
{"agent":"12345675","amount":5000,"document":"6000000001","kind":"ADMA","reason":"fare"}
HTTP 403
{"code":"N01"}

POST {{base}}/airlines/125/memos/uphold
Bsp-Token: airlinetoken0220
{"document":"6000000001"}
HTTP 403
{"code":"N01"}

POST {{base}}/airlines/125/memos/withdraw
Bsp-Token: officetoken00001
{"document":"6000000001"}
HTTP 403
{"code":"N01"}

POST {{base}}/airlines/125/memos/reduce
Bsp-Token: agenttoken000001
{"amount":3000,"document":"6000000001"}
HTTP 403
{"code":"N01"}

GET {{base}}/airlines/125/hot/24011
HTTP 403
{"code":"N01"}

GET {{base}}/airlines/330/memos
Bsp-Token: airlinetoken0125
HTTP 403
{"code":"N01"}
