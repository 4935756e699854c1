# Example 34: an open debit memo is billed once its review is over, and a credit memo at once.
# after: opening/plan.hurl opening/callers.hurl
#
# The memo of example 33, open, and another one of 2024-01-06. A close on 2024-01-20 bills the first, 5000, and not
# the second; `dispute` of the first is M02, of the second done. An ACMA of 2024-01-20 is billed at once; `agree` M06.

POST {{base}}/airlines/125/memos
Bsp-Token: airlinetoken0125
{"agent":"12345675","amount":5000,"document":"6000000001","kind":"ADMA","reason":"fare"}
HTTP 200
{"result":"done"}

POST {{base}}/office/day
Bsp-Token: officetoken00001
{"day":"2024-01-06"}
HTTP 200
{"result":"done"}

POST {{base}}/airlines/125/memos
Bsp-Token: airlinetoken0125
{"agent":"12345675","amount":5000,"document":"6000000002","kind":"ADMA","reason":"fare"}
HTTP 200
{"result":"done"}

# On 2024-01-20 the review of the first is over, and it is the last day of the second's.
POST {{base}}/office/day
Bsp-Token: officetoken00001
{"day":"2024-01-20"}
HTTP 200
{"result":"done"}

POST {{base}}/airlines/125/memos
Bsp-Token: airlinetoken0125
{"agent":"12345675","amount":100,"document":"6000000003","kind":"ACMA","reason":"fare"}
HTTP 200
{"result":"done"}

POST {{base}}/agents/12345675/memos/dispute
Bsp-Token: agenttoken000001
{"airline":"125","document":"6000000001"}
HTTP 409
{"code":"M02"}

POST {{base}}/agents/12345675/memos/agree
Bsp-Token: agenttoken000001
{"airline":"125","document":"6000000001"}
HTTP 409
{"code":"M02"}

POST {{base}}/office/close
Bsp-Token: officetoken00001
{"period":"24011"}
HTTP 200
{"result":"done"}

GET {{base}}/agents/12345675/memos
Bsp-Token: agenttoken000001
HTTP 200
{"memos":[{"agent":"12345675","airline":"125","amount":5000,"billed":"24011","document":"6000000001","issued":"2024-01-05","kind":"ADMA","reason":"fare","state":"open"},{"agent":"12345675","airline":"125","amount":5000,"billed":null,"document":"6000000002","issued":"2024-01-06","kind":"ADMA","reason":"fare","state":"open"},{"agent":"12345675","airline":"125","amount":100,"billed":"24011","document":"6000000003","issued":"2024-01-20","kind":"ACMA","reason":"fare","state":"open"}]}

# A billed memo is neither disputed nor withdrawn, and no close bills it again.
POST {{base}}/agents/12345675/memos/dispute
Bsp-Token: agenttoken000001
{"airline":"125","document":"6000000001"}
HTTP 409
{"code":"M02"}

POST {{base}}/airlines/125/memos/withdraw
Bsp-Token: airlinetoken0125
{"document":"6000000001"}
HTTP 409
{"code":"M03"}

POST {{base}}/agents/12345675/memos/agree
Bsp-Token: agenttoken000001
{"airline":"125","document":"6000000003"}
HTTP 409
{"code":"M06"}

POST {{base}}/airlines/125/memos/withdraw
Bsp-Token: airlinetoken0125
{"document":"6000000003"}
HTTP 409
{"code":"M06"}

POST {{base}}/agents/12345675/memos/dispute
Bsp-Token: agenttoken000001
{"airline":"125","document":"6000000002"}
HTTP 200
{"result":"done"}

POST {{base}}/office/day
Bsp-Token: officetoken00001
{"day":"2024-02-01"}
HTTP 200
{"result":"done"}

POST {{base}}/office/close
Bsp-Token: officetoken00001
{"period":"24012"}
HTTP 200
{"result":"done"}

GET {{base}}/agents/12345675/memos
Bsp-Token: agenttoken000001
HTTP 200
{"memos":[{"agent":"12345675","airline":"125","amount":5000,"billed":"24011","document":"6000000001","issued":"2024-01-05","kind":"ADMA","reason":"fare","state":"open"},{"agent":"12345675","airline":"125","amount":5000,"billed":null,"document":"6000000002","issued":"2024-01-06","kind":"ADMA","reason":"fare","state":"disputed"},{"agent":"12345675","airline":"125","amount":100,"billed":"24011","document":"6000000003","issued":"2024-01-20","kind":"ACMA","reason":"fare","state":"open"}]}
