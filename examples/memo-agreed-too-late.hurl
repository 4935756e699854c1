# A memo is agreed to on the day after its review.
# after: opening/plan-limit-2.hurl opening/callers.hurl

POST {{base}}/airlines/125/memos
Bsp-Token: airlinetoken0125
{"agent":"12345675","amount":5000,"document":"6000000001","kind":"ADMA","reason":"fare"}
HTTP 200
{"result":"done"}

POST {{base}}/office/day
Bsp-Token: officetoken00001
{"day":"2024-01-20"}
HTTP 200
{"result":"done"}

POST {{base}}/agents/12345675/memos/agree
Bsp-Token: agenttoken000001
{"airline":"125","document":"6000000001"}
HTTP 409
{"code":"M02"}
