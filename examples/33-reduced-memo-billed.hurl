# Example 33: a memo that is reduced is billed once, by the reduced amount.
# after: opening/plan.hurl opening/callers.hurl
#
# An ADMA of 5000 issued on 2024-01-05, review 14. `dispute` on 2024-01-19 done, again on 2024-01-20 held; `agree`
# then M03. `reduce` to 5000 and to 0 M04, to 3000 done, again held, to 2000 M03. A close bills 3000, the next one
# nothing; `withdraw` then M03.

POST {{base}}/airlines/125/memos
Bsp-Token: airlinetoken0125
{"agent":"12345675","amount":5000,"document":"6000000001","kind":"ADMA","reason":"fare"}
HTTP 200
{"result":"done"}

POST {{base}}/office/day
Bsp-Token: officetoken00001
{"day":"2024-01-19"}
HTTP 200
{"result":"done"}

POST {{base}}/agents/12345675/memos/dispute
Bsp-Token: agenttoken000001
{"airline":"125","document":"6000000001"}
HTTP 200
{"result":"done"}

POST {{base}}/office/day
Bsp-Token: officetoken00001
{"day":"2024-01-20"}
HTTP 200
{"result":"done"}

POST {{base}}/agents/12345675/memos/dispute
Bsp-Token: agenttoken000001
{"airline":"125","document":"6000000001"}
HTTP 200
{"result":"held"}

POST {{base}}/agents/12345675/memos/agree
Bsp-Token: agenttoken000001
{"airline":"125","document":"6000000001"}
HTTP 409
{"code":"M03"}

POST {{base}}/airlines/125/memos/reduce
Bsp-Token: airlinetoken0125
{"amount":5000,"document":"6000000001"}
HTTP 409
{"code":"M04"}

POST {{base}}/airlines/125/memos/reduce
Bsp-Token: airlinetoken0125
{"amount":0,"document":"6000000001"}
HTTP 409
{"code":"M04"}

POST {{base}}/airlines/125/memos/reduce
Bsp-Token: airlinetoken0125
{"amount":3000,"document":"6000000001"}
HTTP 200
{"result":"done"}

POST {{base}}/airlines/125/memos/reduce
Bsp-Token: airlinetoken0125
{"amount":3000,"document":"6000000001"}
HTTP 200
{"result":"held"}

POST {{base}}/airlines/125/memos/reduce
Bsp-Token: airlinetoken0125
{"amount":2000,"document":"6000000001"}
HTTP 409
{"code":"M03"}

POST {{base}}/office/close
Bsp-Token: officetoken00001
{"period":"24011"}
HTTP 200
{"result":"done"}

GET {{base}}/agents/12345675/memos
Bsp-Token: agenttoken000001
HTTP 200
{"memos":[{"agent":"12345675","airline":"125","amount":3000,"billed":"24011","document":"6000000001","issued":"2024-01-05","kind":"ADMA","reason":"fare","state":"reduced"}]}

# What is billed stays as it is.
POST {{base}}/airlines/125/memos/withdraw
Bsp-Token: airlinetoken0125
{"document":"6000000001"}
HTTP 409
{"code":"M03"}

POST {{base}}/airlines/125/memos/reduce
Bsp-Token: airlinetoken0125
{"amount":3000,"document":"6000000001"}
HTTP 200
{"result":"held"}

POST {{base}}/airlines/125/memos/reduce
Bsp-Token: airlinetoken0125
{"amount":2000,"document":"6000000001"}
HTTP 409
{"code":"M03"}

POST {{base}}/airlines/125/memos/uphold
Bsp-Token: airlinetoken0125
{"document":"6000000001"}
HTTP 409
{"code":"M03"}

POST {{base}}/office/day
Bsp-Token: officetoken00001
{"day":"2024-02-01"}
HTTP 200
{"result":"done"}

POST {{base}}/office/close
Bsp-Token: officetoken00001
{"period":"24012"}
HTTP 200
{"result":"done"}

GET {{base}}/agents/12345675/memos
Bsp-Token: agenttoken000001
HTTP 200
{"memos":[{"agent":"12345675","airline":"125","amount":3000,"billed":"24011","document":"6000000001","issued":"2024-01-05","kind":"ADMA","reason":"fare","state":"reduced"}]}

GET {{base}}/agents/12345675/periods/24012
Bsp-Token: agenttoken000001
HTTP 200
{"closed":true,"documents":0,"net":"0.00","period":"24012"}
