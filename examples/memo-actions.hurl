# A memo is upheld, one is withdrawn, and a credit memo allows no action.
# after: opening/plan.hurl opening/callers.hurl opening/memos.hurl

POST {{base}}/airlines/125/memos/uphold
Bsp-Token: airlinetoken0125
{"document":"6000000001"}
HTTP 409
{"code":"M03"}

POST {{base}}/agents/12345675/memos/dispute
Bsp-Token: agenttoken000001
{"airline":"125","document":"6000000001"}
HTTP 200
{"result":"done"}

POST {{base}}/airlines/125/memos/uphold
Bsp-Token: airlinetoken0125
{"document":"6000000001"}
HTTP 200
{"result":"done"}

POST {{base}}/airlines/125/memos/uphold
Bsp-Token: airlinetoken0125
{"document":"6000000001"}
HTTP 200
{"result":"held"}

POST {{base}}/airlines/125/memos/withdraw
Bsp-Token: airlinetoken0125
{"document":"6000000002"}
HTTP 200
{"result":"done"}

POST {{base}}/airlines/125/memos/withdraw
Bsp-Token: airlinetoken0125
{"document":"6000000002"}
HTTP 200
{"result":"held"}

POST {{base}}/agents/12345675/memos/agree
Bsp-Token: agenttoken000001
{"airline":"125","document":"6000000003"}
HTTP 409
{"code":"M06"}

GET {{base}}/agents/12345675/memos
Bsp-Token: agenttoken000001
HTTP 200
{"memos":[{"agent":"12345675","airline":"125","amount":5000,"billed":null,"document":"6000000001","issued":"2024-01-05","kind":"ADMA","reason":"fare","state":"upheld"},{"agent":"12345675","airline":"125","amount":5000,"billed":null,"document":"6000000002","issued":"2024-01-05","kind":"ADMA","reason":"fare","state":"withdrawn"},{"agent":"12345675","airline":"125","amount":100,"billed":null,"document":"6000000003","issued":"2024-01-05","kind":"ACMA","reason":"fare","state":"open"}]}

GET {{base}}/airlines/125/memos
Bsp-Token: airlinetoken0125
HTTP 200
{"memos":[{"agent":"12345675","airline":"125","amount":5000,"billed":null,"document":"6000000001","issued":"2024-01-05","kind":"ADMA","reason":"fare","state":"upheld"},{"agent":"12345675","airline":"125","amount":5000,"billed":null,"document":"6000000002","issued":"2024-01-05","kind":"ADMA","reason":"fare","state":"withdrawn"},{"agent":"12345675","airline":"125","amount":100,"billed":null,"document":"6000000003","issued":"2024-01-05","kind":"ACMA","reason":"fare","state":"open"}]}

GET {{base}}/agents/76543213/memos
Bsp-Token: agenttoken000002
HTTP 200
{"memos":[]}

GET {{base}}/airlines/220/memos
Bsp-Token: airlinetoken0220
HTTP 200
{"memos":[]}
