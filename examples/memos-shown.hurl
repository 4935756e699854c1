# An agent is shown the memos to it, and an airline its own, rising by document.
# after: opening/plan-limit-2.hurl opening/callers.hurl

POST {{base}}/airlines/125/memos
Bsp-Token: airlinetoken0125
{"agent":"12345675","amount":700,"document":"6000000002","kind":"ACMA","reason":"fee"}
HTTP 200
{"result":"done"}

POST {{base}}/airlines/125/memos
Bsp-Token: airlinetoken0125
{"agent":"76543213","amount":1,"document":"6000000003","kind":"ADMA","reason":"fee"}
HTTP 200
{"result":"done"}

POST {{base}}/airlines/125/memos
Bsp-Token: airlinetoken0125
{"agent":"12345675","amount":5000,"document":"6000000001","kind":"ADMA","reason":"fare"}
HTTP 200
{"result":"done"}

GET {{base}}/agents/12345675/memos
Bsp-Token: agenttoken000001
HTTP 200
{"memos":[{"agent":"12345675","airline":"125","amount":5000,"billed":null,"document":"6000000001","issued":"2024-01-05","kind":"ADMA","reason":"fare","state":"open"},{"agent":"12345675","airline":"125","amount":700,"billed":null,"document":"6000000002","issued":"2024-01-05","kind":"ACMA","reason":"fee","state":"open"}]}

GET {{base}}/agents/76543213/memos
Bsp-Token: agenttoken000002
HTTP 200
{"memos":[{"agent":"76543213","airline":"125","amount":1,"billed":null,"document":"6000000003","issued":"2024-01-05","kind":"ADMA","reason":"fee","state":"open"}]}

GET {{base}}/airlines/125/memos
Bsp-Token: airlinetoken0125
HTTP 200
{"memos":[{"agent":"12345675","airline":"125","amount":5000,"billed":null,"document":"6000000001","issued":"2024-01-05","kind":"ADMA","reason":"fare","state":"open"},{"agent":"12345675","airline":"125","amount":700,"billed":null,"document":"6000000002","issued":"2024-01-05","kind":"ACMA","reason":"fee","state":"open"},{"agent":"76543213","airline":"125","amount":1,"billed":null,"document":"6000000003","issued":"2024-01-05","kind":"ADMA","reason":"fee","state":"open"}]}
