# A reason is 1 to 40 characters from 0x20 to 0x7E.
# after: opening/plan.hurl opening/callers.hurl

POST {{base}}/airlines/125/memos
Bsp-Token: airlinetoken0125
{"agent":"12345675","amount":5000,"document":"6000000001","kind":"ADMA","reason":" "}
HTTP 200
{"result":"done"}

POST {{base}}/airlines/125/memos
Bsp-Token: airlinetoken0125
{"agent":"12345675","amount":5000,"document":"6000000002","kind":"ADMA","reason":"~"}
HTTP 200
{"result":"done"}

POST {{base}}/airlines/125/memos
Bsp-Token: airlinetoken0125
{"agent":"12345675","amount":5000,"document":"6000000003","kind":"ADMA","reason":"fare difference "}
HTTP 200
{"result":"done"}

POST {{base}}/airlines/125/memos
Bsp-Token: airlinetoken0125
{"agent":"12345675","amount":5000,"document":"6000000004","kind":"ADMA","reason":"0123456789012345678901234567890123456789"}
HTTP 200
{"result":"done"}

POST {{base}}/airlines/125/memos
Bsp-Token: airlinetoken0125
{"agent":"12345675","amount":5000,"document":"6000000005","kind":"ADMA","reason":" ~\"\\"}
HTTP 200
{"result":"done"}

POST {{base}}/airlines/125/memos
Bsp-Token: airlinetoken0125
{"agent":"12345675","amount":5000,"document":"6000000006","kind":"ADMA","reason":"\u0041 ~"}
HTTP 200
{"result":"done"}

# None at all, a character more, a DEL, and a line end.
POST {{base}}/airlines/125/memos
Bsp-Token: airlinetoken0125
{"agent":"12345675","amount":5000,"document":"6000000007","kind":"ADMA","reason":""}
HTTP 400
{"code":"N04"}

POST {{base}}/airlines/125/memos
Bsp-Token: airlinetoken0125
{"agent":"12345675","amount":5000,"document":"6000000007","kind":"ADMA","reason":"01234567890123456789012345678901234567890"}
HTTP 400
{"code":"N04"}

POST {{base}}/airlines/125/memos
Bsp-Token: airlinetoken0125
{"agent":"12345675","amount":5000,"document":"6000000007","kind":"ADMA","reason":"a\u007f"}
HTTP 400
{"code":"N04"}

POST {{base}}/airlines/125/memos
Bsp-Token: airlinetoken0125
{"agent":"12345675","amount":5000,"document":"6000000007","kind":"ADMA","reason":"a\nb"}
HTTP 400
{"code":"N04"}

GET {{base}}/agents/12345675/memos
Bsp-Token: agenttoken000001
HTTP 200
{"memos":[{"agent":"12345675","airline":"125","amount":5000,"billed":null,"document":"6000000001","issued":"2024-01-05","kind":"ADMA","reason":" ","state":"open"},{"agent":"12345675","airline":"125","amount":5000,"billed":null,"document":"6000000002","issued":"2024-01-05","kind":"ADMA","reason":"~","state":"open"},{"agent":"12345675","airline":"125","amount":5000,"billed":null,"document":"6000000003","issued":"2024-01-05","kind":"ADMA","reason":"fare difference ","state":"open"},{"agent":"12345675","airline":"125","amount":5000,"billed":null,"document":"6000000004","issued":"2024-01-05","kind":"ADMA","reason":"0123456789012345678901234567890123456789","state":"open"},{"agent":"12345675","airline":"125","amount":5000,"billed":null,"document":"6000000005","issued":"2024-01-05","kind":"ADMA","reason":" ~\"\\","state":"open"},{"agent":"12345675","airline":"125","amount":5000,"billed":null,"document":"6000000006","issued":"2024-01-05","kind":"ADMA","reason":"A ~","state":"open"}]}
