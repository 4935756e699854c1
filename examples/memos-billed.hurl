# A memo that is upheld is billed, and so is a credit memo; one that is withdrawn is not.
# after: opening/plan.hurl opening/callers.hurl opening/memos.hurl memo-actions.hurl

# Neither is one that is open within its review.
POST {{base}}/airlines/125/memos
Bsp-Token: airlinetoken0125
{"agent":"12345675","amount":700,"document":"6000000004","kind":"ADMA","reason":"fare"}
HTTP 200
{"result":"done"}

POST {{base}}/office/day
Bsp-Token: officetoken00001
{"day":"2024-01-16"}
HTTP 200
{"result":"done"}

POST {{base}}/office/close
Bsp-Token: officetoken00001
{"period":"24011"}
HTTP 200
{"result":"done"}

GET {{base}}/agents/12345675/memos
Bsp-Token: agenttoken000001
HTTP 200
{"memos":[{"agent":"12345675","airline":"125","amount":5000,"billed":"24011","document":"6000000001","issued":"2024-01-05","kind":"ADMA","reason":"fare","state":"upheld"},{"agent":"12345675","airline":"125","amount":5000,"billed":null,"document":"6000000002","issued":"2024-01-05","kind":"ADMA","reason":"fare","state":"withdrawn"},{"agent":"12345675","airline":"125","amount":100,"billed":"24011","document":"6000000003","issued":"2024-01-05","kind":"ACMA","reason":"fare","state":"open"},{"agent":"12345675","airline":"125","amount":700,"billed":null,"document":"6000000004","issued":"2024-01-05","kind":"ADMA","reason":"fare","state":"open"}]}

POST {{base}}/airlines/125/memos/uphold
Bsp-Token: airlinetoken0125
{"document":"6000000001"}
HTTP 200
{"result":"held"}

POST {{base}}/airlines/125/memos/withdraw
Bsp-Token: airlinetoken0125
{"document":"6000000001"}
HTTP 409
{"code":"M03"}

POST {{base}}/airlines/125/memos/withdraw
Bsp-Token: airlinetoken0125
{"document":"6000000002"}
HTTP 200
{"result":"held"}

POST {{base}}/agents/12345675/memos/agree
Bsp-Token: agenttoken000001
{"airline":"125","document":"6000000003"}
HTTP 409
{"code":"M06"}

# The next close bills the open one alone.
POST {{base}}/office/day
Bsp-Token: officetoken00001
{"day":"2024-02-01"}
HTTP 200
{"result":"done"}

POST {{base}}/office/close
Bsp-Token: officetoken00001
{"period":"24012"}
HTTP 200
{"result":"done"}

GET {{base}}/agents/12345675/memos
Bsp-Token: agenttoken000001
HTTP 200
{"memos":[{"agent":"12345675","airline":"125","amount":5000,"billed":"24011","document":"6000000001","issued":"2024-01-05","kind":"ADMA","reason":"fare","state":"upheld"},{"agent":"12345675","airline":"125","amount":5000,"billed":null,"document":"6000000002","issued":"2024-01-05","kind":"ADMA","reason":"fare","state":"withdrawn"},{"agent":"12345675","airline":"125","amount":100,"billed":"24011","document":"6000000003","issued":"2024-01-05","kind":"ACMA","reason":"fare","state":"open"},{"agent":"12345675","airline":"125","amount":700,"billed":"24012","document":"6000000004","issued":"2024-01-05","kind":"ADMA","reason":"fare","state":"open"}]}

GET {{base}}/agents/12345675/periods/24011
Bsp-Token: agenttoken000001
HTTP 200
{"closed":true,"documents":0,"net":"49.00","period":"24011"}

GET {{base}}/agents/12345675/periods/24012
Bsp-Token: agenttoken000001
HTTP 200
{"closed":true,"documents":0,"net":"7.00","period":"24012"}
