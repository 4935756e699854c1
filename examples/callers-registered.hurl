# Callers are answered once they are registered, and with the token that they were given last.
# after: opening/plan.hurl

GET {{base}}/agents/12345675/memos
Bsp-Token: agenttoken000001
HTTP 403
{"code":"N01"}

POST {{base}}/office/agents
Bsp-Token: officetoken00001
{"agent":"12345675","token":"agenttoken000001"}
HTTP 200
{"result":"done"}

POST {{base}}/office/agents
Bsp-Token: officetoken00001
{"agent":"12345675","token":"agenttoken000001"}
HTTP 200
{"result":"held"}

GET {{base}}/agents/12345675/memos
Bsp-Token: agenttoken000001
HTTP 200
{"memos":[]}

GET {{base}}/agents/12345675/memos
Bsp-Token: agenttoken000002
HTTP 403
{"code":"N01"}

GET {{base}}/agents/12345675/memos
HTTP 403
{"code":"N01"}

GET {{base}}/agents/12345674/memos
Bsp-Token: agenttoken000001
HTTP 403
{"code":"N01"}

POST {{base}}/office/agents
Bsp-Token: officetoken00001
{"agent":"12345675","token":"agenttoken000009"}
HTTP 200
{"result":"done"}

GET {{base}}/agents/12345675/memos
Bsp-Token: agenttoken000001
HTTP 403
{"code":"N01"}

GET {{base}}/agents/12345675/memos
Bsp-Token: agenttoken000009
HTTP 200
{"memos":[]}

GET {{base}}/airlines/125/memos
Bsp-Token: airlinetoken0125
HTTP 403
{"code":"N01"}

POST {{base}}/office/airlines
Bsp-Token: officetoken00001
{"airline":"125","token":"airlinetoken0125"}
HTTP 200
{"result":"done"}

GET {{base}}/airlines/125/memos
Bsp-Token: airlinetoken0125
HTTP 200
{"memos":[]}
