# The amount of a memo is from 1 to 99,999,999,999.
# after: opening/plan.hurl opening/callers.hurl

POST {{base}}/airlines/125/memos
Bsp-Token: airlinetoken0125
{"agent":"12345675","amount":-9223372036854775808,"document":"6000000001","kind":"ADMA","reason":"fare"}
HTTP 409
{"code":"M04"}

POST {{base}}/airlines/125/memos
Bsp-Token: airlinetoken0125
{"agent":"12345675","amount":0,"document":"6000000001","kind":"ADMA","reason":"fare"}
HTTP 409
{"code":"M04"}

POST {{base}}/airlines/125/memos
Bsp-Token: airlinetoken0125
{"agent":"12345675","amount":1,"document":"6000000001","kind":"ADMA","reason":"fare"}
HTTP 200
{"result":"done"}

POST {{base}}/airlines/125/memos
Bsp-Token: airlinetoken0125
{"agent":"12345675","amount":100000000000,"document":"6000000002","kind":"ADMA","reason":"fare"}
HTTP 409
{"code":"M04"}

POST {{base}}/airlines/125/memos
Bsp-Token: airlinetoken0125
{"agent":"12345675","amount":9223372036854775807,"document":"6000000002","kind":"ADMA","reason":"fare"}
HTTP 409
{"code":"M04"}

POST {{base}}/airlines/125/memos
Bsp-Token: airlinetoken0125
{"agent":"12345675","amount":99999999999,"document":"6000000002","kind":"ADMA","reason":"fare"}
HTTP 200
{"result":"done"}

GET {{base}}/agents/12345675/memos
Bsp-Token: agenttoken000001
HTTP 200
{"memos":[{"agent":"12345675","airline":"125","amount":1,"billed":null,"document":"6000000001","issued":"2024-01-05","kind":"ADMA","reason":"fare","state":"open"},{"agent":"12345675","airline":"125","amount":99999999999,"billed":null,"document":"6000000002","issued":"2024-01-05","kind":"ADMA","reason":"fare","state":"open"}]}
