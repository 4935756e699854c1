# A value of another form in a path is a code that no caller has, or a document or period that nobody has.
# after: opening/plan.hurl opening/callers.hurl

GET {{base}}/agents/memos/memos
Bsp-Token: agenttoken000001
HTTP 403
{"code":"N01"}

GET {{base}}/agents/1/stock
Bsp-Token: agenttoken000001
HTTP 403
{"code":"N01"}

GET {{base}}/agents/12345674/stock
Bsp-Token: agenttoken000001
HTTP 403
{"code":"N01"}

GET {{base}}/airlines/12/memos
Bsp-Token: agenttoken000001
HTTP 403
{"code":"N01"}

GET {{base}}/airlines/memos/memos
Bsp-Token: agenttoken000001
HTTP 403
{"code":"N01"}

POST {{base}}/agents/1/memos/agree
Bsp-Token: agenttoken000001
{"airline":"125","document":"6000000001"}
HTTP 403
{"code":"N01"}

GET {{base}}/agents/12345675/documents/x
Bsp-Token: agenttoken000001
HTTP 404
{"code":"D01"}

GET {{base}}/agents/12345675/documents/130000000
Bsp-Token: agenttoken000001
HTTP 404
{"code":"D01"}

GET {{base}}/agents/12345675/documents/13000000016
Bsp-Token: agenttoken000001
HTTP 404
{"code":"D01"}

GET {{base}}/agents/12345675/documents/1300000001
Bsp-Token: agenttoken000001
HTTP 404
{"code":"D01"}

GET {{base}}/agents/12345675/periods/2401
Bsp-Token: agenttoken000001
HTTP 409
{"code":"S01"}

GET {{base}}/agents/12345675/statements/2401x
Bsp-Token: agenttoken000001
HTTP 409
{"code":"S01"}

GET {{base}}/agents/12345675/statements/240111
Bsp-Token: agenttoken000001
HTTP 409
{"code":"S01"}

GET {{base}}/office/settlement/x
Bsp-Token: officetoken00001
HTTP 409
{"code":"S01"}

GET {{base}}/airlines/125/hot/240111
Bsp-Token: airlinetoken0125
HTTP 409
{"code":"H02"}
