# The month of example 16 after its close: what the callers see of it, what is held, and what else they may do.
# after: opening/plan.hurl opening/callers.hurl opening/month.hurl

GET {{base}}/agents/12345675/documents/1300000001
Bsp-Token: agenttoken000001
HTTP 200
{"airline":"125","cash":23500,"code":"TKTT","commission":1000,"credit":0,"issued":"2024-01-05","period":"24011","state":"alive"}

GET {{base}}/agents/12345675/periods/24011
Bsp-Token: agenttoken000001
HTTP 200
{"closed":true,"documents":2,"net":"255.00","period":"24011"}

GET {{base}}/agents/12345675/stock
Bsp-Token: agenttoken000001
HTTP 200
{"ranges":[{"first":"1300000000","last":"1300000099","used":2}]}

GET {{base}}/agents/12345675/memos
Bsp-Token: agenttoken000001
HTTP 200
{"memos":[{"agent":"12345675","airline":"220","amount":3000,"billed":"24011","document":"7000000001","issued":"2024-01-05","kind":"ADMA","reason":"RATE OF MARCH","state":"agreed"}]}

GET {{base}}/airlines/125/memos
Bsp-Token: airlinetoken0125
HTTP 200
{"memos":[{"agent":"76543213","airline":"125","amount":5000,"billed":"24011","document":"6000000001","issued":"2024-01-05","kind":"ACMA","reason":"RATE OF MARCH","state":"open"}]}

POST {{base}}/office/close
Bsp-Token: officetoken00001
{"period":"24011"}
HTTP 200
{"result":"held"}

GET {{base}}/agents/76543213/stock
Bsp-Token: agenttoken000002
HTTP 200
{"ranges":[{"first":"1400000000","last":"1400000099","used":0}]}

GET {{base}}/agents/12345675/stock
Bsp-Token: agenttoken000002
HTTP 403
{"code":"N01"}

# The office reports the sale again, and then what is no RET file.
POST {{base}}/office/ret
Bsp-Token: officetoken00001
file,samples/sale.ret;
HTTP 200
{"results":[{"n":1,"period":"24011","verdict":"held"}]}

POST {{base}}/office/ret
Bsp-Token: officetoken00001
file,samples/plan.toml;
HTTP 422
{"code":"F01","record":1}

# Memos of the next period are reduced, upheld and withdrawn.
POST {{base}}/airlines/125/memos
Bsp-Token: airlinetoken0125
{"agent":"12345675","amount":5000,"document":"6000000002","kind":"ADMA","reason":"fare"}
HTTP 200
{"result":"done"}

POST {{base}}/agents/12345675/memos/dispute
Bsp-Token: agenttoken000001
{"airline":"125","document":"6000000002"}
HTTP 200
{"result":"done"}

POST {{base}}/airlines/125/memos/reduce
Bsp-Token: airlinetoken0125
{"amount":5000,"document":"6000000002"}
HTTP 409
{"code":"M04"}

POST {{base}}/airlines/125/memos/reduce
Bsp-Token: airlinetoken0125
{"amount":3000,"document":"6000000002"}
HTTP 200
{"result":"done"}

POST {{base}}/airlines/125/memos
Bsp-Token: airlinetoken0125
{"agent":"12345675","amount":100,"document":"6000000003","kind":"ADMA","reason":"fare"}
HTTP 200
{"result":"done"}

POST {{base}}/agents/12345675/memos/dispute
Bsp-Token: agenttoken000001
{"airline":"125","document":"6000000003"}
HTTP 200
{"result":"done"}

POST {{base}}/airlines/125/memos/uphold
Bsp-Token: airlinetoken0125
{"document":"6000000003"}
HTTP 200
{"result":"done"}

POST {{base}}/airlines/125/memos
Bsp-Token: airlinetoken0125
{"agent":"12345675","amount":200,"document":"6000000004","kind":"ADMA","reason":"fare"}
HTTP 200
{"result":"done"}

POST {{base}}/airlines/125/memos/withdraw
Bsp-Token: airlinetoken0125
{"document":"6000000004"}
HTTP 200
{"result":"done"}

GET {{base}}/agents/12345675/memos
Bsp-Token: agenttoken000001
HTTP 200
{"memos":[{"agent":"12345675","airline":"125","amount":3000,"billed":null,"document":"6000000002","issued":"2024-01-16","kind":"ADMA","reason":"fare","state":"reduced"},{"agent":"12345675","airline":"125","amount":100,"billed":null,"document":"6000000003","issued":"2024-01-16","kind":"ADMA","reason":"fare","state":"upheld"},{"agent":"12345675","airline":"125","amount":200,"billed":null,"document":"6000000004","issued":"2024-01-16","kind":"ADMA","reason":"fare","state":"withdrawn"},{"agent":"12345675","airline":"220","amount":3000,"billed":"24011","document":"7000000001","issued":"2024-01-05","kind":"ADMA","reason":"RATE OF MARCH","state":"agreed"}]}

POST {{base}}/office/stock/withdraw
Bsp-Token: officetoken00001
{"agent":"76543213","first":"1400000000","last":"1400000099"}
HTTP 200
{"result":"done"}

POST {{base}}/office/stock/withdraw
Bsp-Token: officetoken00001
{"agent":"12345675","first":"1300000000","last":"1300000099"}
HTTP 409
{"code":"K05"}

POST {{base}}/office/day
Bsp-Token: officetoken00001
`{"day":"2024-01-16"`
HTTP 400
{"code":"N04"}

POST {{base}}/agents/12345675/memos/dispute
Bsp-Token: agenttoken000001
{"airline":"125","document":"6000000009"}
HTTP 404
{"code":"M01"}
