# A memo is disputed and reduced, and allows no other action then.
# after: opening/plan-limit-2.hurl opening/callers.hurl

POST {{base}}/agents/12345675/memos/dispute
Bsp-Token: agenttoken000001
{"airline":"125","document":"6000000001"}
HTTP 404
{"code":"M01"}

POST {{base}}/airlines/125/memos
Bsp-Token: airlinetoken0125
{"agent":"12345675","amount":5000,"document":"6000000001","kind":"ADMA","reason":"fare"}
HTTP 200
{"result":"done"}

POST {{base}}/airlines/125/memos
Bsp-Token: airlinetoken0125
{"agent":"12345675","amount":700,"document":"6000000002","kind":"ACMA","reason":"fee"}
HTTP 200
{"result":"done"}

POST {{base}}/agents/12345675/memos/dispute
Bsp-Token: agenttoken000001
{"airline":"125","document":"6000000002"}
HTTP 409
{"code":"M06"}

POST {{base}}/airlines/125/memos/uphold
Bsp-Token: airlinetoken0125
{"document":"6000000001"}
HTTP 409
{"code":"M03"}

POST {{base}}/agents/76543213/memos/dispute
Bsp-Token: agenttoken000002
{"airline":"125","document":"6000000001"}
HTTP 404
{"code":"M01"}

POST {{base}}/office/day
Bsp-Token: officetoken00001
{"day":"2024-01-19"}
HTTP 200
{"result":"done"}

POST {{base}}/agents/12345675/memos/dispute
Bsp-Token: agenttoken000001
{"airline":"125","document":"6000000001"}
HTTP 200
{"result":"done"}

POST {{base}}/agents/12345675/memos/dispute
Bsp-Token: agenttoken000001
{"airline":"125","document":"6000000001"}
HTTP 200
{"result":"held"}

POST {{base}}/airlines/125/memos/reduce
Bsp-Token: airlinetoken0125
{"amount":3000,"document":"6000000001"}
HTTP 200
{"result":"done"}

POST {{base}}/airlines/125/memos/reduce
Bsp-Token: airlinetoken0125
{"amount":3000,"document":"6000000001"}
HTTP 200
{"result":"held"}

POST {{base}}/airlines/125/memos/withdraw
Bsp-Token: airlinetoken0125
{"document":"6000000001"}
HTTP 409
{"code":"M03"}
