# Example 14: memos are billed over two closes.
# after: opening/plan.hurl opening/callers.hurl opening/memos.hurl
#
# On 2024-01-05 two ADMA of 5000 and an ACMA of 100. On 2024-01-19 the first is disputed, and a close bills only the
# ACMA. A reduction of the first to 5000 is M04, one to 3000 done. A close on 2024-02-01 bills 3000 and 5000, and
# another one nothing. A's net of 24012 is `80.00` and of 24011 `-1.00`. Closing 24011 again is held.

POST {{base}}/office/day
Bsp-Token: officetoken00001
{"day":"2024-01-19"}
HTTP 200
{"result":"done"}

POST {{base}}/agents/12345675/memos/dispute
Bsp-Token: agenttoken000001
{"airline":"125","document":"6000000001"}
HTTP 200
{"result":"done"}

POST {{base}}/office/close
Bsp-Token: officetoken00001
{"period":"24011"}
HTTP 200
{"result":"done"}

GET {{base}}/agents/12345675/memos
Bsp-Token: agenttoken000001
HTTP 200
{"memos":[{"agent":"12345675","airline":"125","amount":5000,"billed":null,"document":"6000000001","issued":"2024-01-05","kind":"ADMA","reason":"fare","state":"disputed"},{"agent":"12345675","airline":"125","amount":5000,"billed":null,"document":"6000000002","issued":"2024-01-05","kind":"ADMA","reason":"fare","state":"open"},{"agent":"12345675","airline":"125","amount":100,"billed":"24011","document":"6000000003","issued":"2024-01-05","kind":"ACMA","reason":"fare","state":"open"}]}

# The disputed memo is reduced, and billed in 24012.
POST {{base}}/office/day
Bsp-Token: officetoken00001
{"day":"2024-01-20"}
HTTP 200
{"result":"done"}

POST {{base}}/airlines/125/memos/reduce
Bsp-Token: airlinetoken0125
{"amount":5000,"document":"6000000001"}
HTTP 409
{"code":"M04"}

POST {{base}}/airlines/125/memos/reduce
Bsp-Token: airlinetoken0125
{"amount":3000,"document":"6000000001"}
HTTP 200
{"result":"done"}

POST {{base}}/office/day
Bsp-Token: officetoken00001
{"day":"2024-02-01"}
HTTP 200
{"result":"done"}

POST {{base}}/office/close
Bsp-Token: officetoken00001
{"period":"24012"}
HTTP 200
{"result":"done"}

GET {{base}}/agents/12345675/periods/24012
Bsp-Token: agenttoken000001
HTTP 200
{"closed":true,"documents":0,"net":"80.00","period":"24012"}

GET {{base}}/agents/12345675/periods/24011
Bsp-Token: agenttoken000001
HTTP 200
{"closed":true,"documents":0,"net":"-1.00","period":"24011"}

POST {{base}}/office/close
Bsp-Token: officetoken00001
{"period":"24011"}
HTTP 200
{"result":"held"}

GET {{base}}/agents/12345675/memos
Bsp-Token: agenttoken000001
HTTP 200
{"memos":[{"agent":"12345675","airline":"125","amount":3000,"billed":"24012","document":"6000000001","issued":"2024-01-05","kind":"ADMA","reason":"fare","state":"reduced"},{"agent":"12345675","airline":"125","amount":5000,"billed":"24012","document":"6000000002","issued":"2024-01-05","kind":"ADMA","reason":"fare","state":"open"},{"agent":"12345675","airline":"125","amount":100,"billed":"24011","document":"6000000003","issued":"2024-01-05","kind":"ACMA","reason":"fare","state":"open"}]}

GET {{base}}/airlines/125/memos
Bsp-Token: airlinetoken0125
HTTP 200
{"memos":[{"agent":"12345675","airline":"125","amount":3000,"billed":"24012","document":"6000000001","issued":"2024-01-05","kind":"ADMA","reason":"fare","state":"reduced"},{"agent":"12345675","airline":"125","amount":5000,"billed":"24012","document":"6000000002","issued":"2024-01-05","kind":"ADMA","reason":"fare","state":"open"},{"agent":"12345675","airline":"125","amount":100,"billed":"24011","document":"6000000003","issued":"2024-01-05","kind":"ACMA","reason":"fare","state":"open"}]}
