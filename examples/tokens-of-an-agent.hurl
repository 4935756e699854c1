# Each request of an agent needs its token.
# after: opening/plan.hurl opening/callers.hurl

POST {{base}}/agents/12345675/ret
Bsp-Token: agenttoken000002
file,samples/sale.ret;
HTTP 403
{"code":"N01"}

GET {{base}}/agents/12345675/documents/1300000001
Bsp-Token: agenttoken000002
HTTP 403
{"code":"N01"}

GET {{base}}/agents/12345675/periods/24011
Bsp-Token: agenttoken000002
HTTP 403
{"code":"N01"}

GET {{base}}/agents/12345675/stock
Bsp-Token: agenttoken000002
HTTP 403
{"code":"N01"}

GET {{base}}/agents/12345675/memos
Bsp-Token: officetoken00001
HTTP 403
{"code":"N01"}

POST {{base}}/agents/12345675/memos/dispute
Bsp-Token: airlinetoken0125
{"airline":"125","document":"6000000001"}
HTTP 403
{"code":"N01"}

POST {{base}}/agents/12345675/memos/agree
Bsp-Token: airlinetoken0125
{"airline":"125","document":"6000000001"}
HTTP 403
{"code":"N01"}

GET {{base}}/agents/12345675/statements/24011
HTTP 403
{"code":"N01"}
