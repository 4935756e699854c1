# A key is missing, is one more or has another name; a value is of another type or out of its form.
# after: opening/plan.hurl opening/callers.hurl opening/memos.hurl

POST {{base}}/office/day
Bsp-Token: officetoken00001
HTTP 400
{"code":"N04"}

POST {{base}}/office/day
Bsp-Token: officetoken00001
`"2024-01-05"`
HTTP 400
{"code":"N04"}

POST {{base}}/office/day
Bsp-Token: officetoken00001
["2024-01-05"]
HTTP 400
{"code":"N04"}

POST {{base}}/office/day
Bsp-Token: officetoken00001
`{"day":"2024-01-05"`
HTTP 400
{"code":"N04"}

POST {{base}}/office/day
Bsp-Token: officetoken00001
`{"day":"2024-01-05"}x`
HTTP 400
{"code":"N04"}

POST {{base}}/office/day
Bsp-Token: officetoken00001
{"Day":"2024-01-05"}
HTTP 400
{"code":"N04"}

POST {{base}}/office/day
Bsp-Token: officetoken00001
{"day":"2024-01-05","x":null}
HTTP 400
{"code":"N04"}

POST {{base}}/office/day
Bsp-Token: officetoken00001
{"day":20240105}
HTTP 400
{"code":"N04"}

POST {{base}}/office/day
Bsp-Token: officetoken00001
{"day":"2024-01-05","day":5}
HTTP 400
{"code":"N04"}

POST {{base}}/office/day
Bsp-Token: officetoken00001
{"day":"2024-02-30"}
HTTP 400
{"code":"N04"}

POST {{base}}/office/day
Bsp-Token: officetoken00001
{"day":"2024/01/05"}
HTTP 400
{"code":"N04"}

POST {{base}}/office/day
Bsp-Token: officetoken00001
{"day":"1999-12-31"}
HTTP 400
{"code":"N04"}

POST {{base}}/office/day
Bsp-Token: officetoken00001
{"day":"2100-01-01"}
HTTP 400
{"code":"N04"}

# An agent's code with letters or seven digits, tokens of 15 and 65 characters, and one with a sign.
POST {{base}}/office/agents
Bsp-Token: officetoken00001
{"agent":"12345675"}
HTTP 400
{"code":"N04"}

POST {{base}}/office/agents
Bsp-Token: officetoken00001
{"token":"agenttoken000001"}
HTTP 400
{"code":"N04"}

POST {{base}}/office/agents
Bsp-Token: officetoken00001
{"agent":12345675,"token":"agenttoken000001"}
HTTP 400
{"code":"N04"}

POST {{base}}/office/agents
Bsp-Token: officetoken00001
{"agent":"1234567","token":"agenttoken000001"}
HTTP 400
{"code":"N04"}

POST {{base}}/office/agents
Bsp-Token: officetoken00001
{"agent":"1234567x","token":"agenttoken000001"}
HTTP 400
{"code":"N04"}

POST {{base}}/office/agents
Bsp-Token: officetoken00001
{"agent":"12345675","token":"agenttoken00001"}
HTTP 400
{"code":"N04"}

POST {{base}}/office/agents
Bsp-Token: officetoken00001
{"agent":"12345675","token":"0123456789abcdef0123456789abcdef0123456789abcdef0123456789abcdef0"}
HTTP 400
{"code":"N04"}

POST {{base}}/office/agents
Bsp-Token: officetoken00001
{"agent":"12345675","token":"agenttoken-00001"}
HTTP 400
{"code":"N04"}

POST {{base}}/office/airlines
Bsp-Token: officetoken00001
{"airline":"12","token":"airlinetoken0001"}
HTTP 400
{"code":"N04"}

POST {{base}}/office/airlines
Bsp-Token: officetoken00001
{"airline":"125","token":null}
HTTP 400
{"code":"N04"}

POST {{base}}/office/airlines
Bsp-Token: officetoken00001
{"agent":"12345675","token":"airlinetoken0001"}
HTTP 400
{"code":"N04"}

POST {{base}}/office/stock/allot
Bsp-Token: officetoken00001
{"agent":"12345675","first":"1300000000"}
HTTP 400
{"code":"N04"}

POST {{base}}/office/stock/allot
Bsp-Token: officetoken00001
{"agent":"12345675","first":"130000000","last":"1300000099"}
HTTP 400
{"code":"N04"}

POST {{base}}/office/stock/allot
Bsp-Token: officetoken00001
{"agent":"12345675","first":"1300000000","last":"13000000006"}
HTTP 400
{"code":"N04"}

POST {{base}}/office/stock/allot
Bsp-Token: officetoken00001
{"agent":"12345675","first":1300000000,"last":"1300000099"}
HTTP 400
{"code":"N04"}

POST {{base}}/office/stock/withdraw
Bsp-Token: officetoken00001
{"agent":"12345675","last":"1300000099"}
HTTP 400
{"code":"N04"}

# The last one has a byte that is no UTF-8.
POST {{base}}/office/close
Bsp-Token: officetoken00001
{"period":"2401"}
HTTP 400
{"code":"N04"}

POST {{base}}/office/close
Bsp-Token: officetoken00001
{"period":24011}
HTTP 400
{"code":"N04"}

POST {{base}}/office/close
Bsp-Token: officetoken00001
hex,7b22706572696f64223a223234303131222c2278223a22ff227d;
HTTP 400
{"code":"N04"}

POST {{base}}/agents/12345675/memos/dispute
Bsp-Token: agenttoken000001
{"document":"6000000001"}
HTTP 400
{"code":"N04"}

POST {{base}}/agents/12345675/memos/dispute
Bsp-Token: agenttoken000001
{"airline":"12A","document":"6000000001"}
HTTP 400
{"code":"N04"}

POST {{base}}/agents/12345675/memos/agree
Bsp-Token: agenttoken000001
{"airline":"125","document":6000000001}
HTTP 400
{"code":"N04"}

POST {{base}}/airlines/125/memos/uphold
Bsp-Token: airlinetoken0125
{"airline":"125","document":"6000000001"}
HTTP 400
{"code":"N04"}

POST {{base}}/airlines/125/memos/uphold
Bsp-Token: airlinetoken0125
{"document":"600000000"}
HTTP 400
{"code":"N04"}

POST {{base}}/airlines/125/memos/withdraw
Bsp-Token: airlinetoken0125
{"document":["6000000001"]}
HTTP 400
{"code":"N04"}

POST {{base}}/airlines/125/memos
Bsp-Token: airlinetoken0125
{"agent":"12345675","amount":5000,"document":"6000000004","kind":"ADMA"}
HTTP 400
{"code":"N04"}

POST {{base}}/airlines/125/memos
Bsp-Token: airlinetoken0125
{"agent":"12345675","amount":"5000","document":"6000000004","kind":"ADMA","reason":"fare"}
HTTP 400
{"code":"N04"}

POST {{base}}/airlines/125/memos
Bsp-Token: airlinetoken0125
{"agent":"12345675","amount":5000,"document":"6000000004","kind":"adma","reason":"fare"}
HTTP 400
{"code":"N04"}

POST {{base}}/airlines/125/memos
Bsp-Token: airlinetoken0125
{"agent":"12345675","amount":5000,"document":"6000000004","kind":"TKTT","reason":"fare"}
HTTP 400
{"code":"N04"}

POST {{base}}/airlines/125/memos
Bsp-Token: airlinetoken0125
{"agent":"12345675","amount":5000,"document":"6000000004","kind":"ADMA","reason":""}
HTTP 400
{"code":"N04"}

POST {{base}}/airlines/125/memos
Bsp-Token: airlinetoken0125
{"agent":"12345675","amount":5000,"document":"6000000004","kind":"ADMA","reason":"12345678901234567890123456789012345678901"}
HTTP 400
{"code":"N04"}

POST {{base}}/airlines/125/memos
Bsp-Token: airlinetoken0125
{"agent":"12345675","amount":5000,"document":"6000000004","kind":"ADMA","reason":"a\nb"}
HTTP 400
{"code":"N04"}

# No whole numbers, or none of 64 bits.
POST {{base}}/airlines/125/memos/reduce
Bsp-Token: airlinetoken0125
{"amount":5000.0,"document":"6000000001"}
HTTP 400
{"code":"N04"}

POST {{base}}/airlines/125/memos/reduce
Bsp-Token: airlinetoken0125
{"amount":5e3,"document":"6000000001"}
HTTP 400
{"code":"N04"}

POST {{base}}/airlines/125/memos/reduce
Bsp-Token: airlinetoken0125
{"amount":-0,"document":"6000000001"}
HTTP 400
{"code":"N04"}

POST {{base}}/airlines/125/memos/reduce
Bsp-Token: airlinetoken0125
{"amount":null,"document":"6000000001"}
HTTP 400
{"code":"N04"}

POST {{base}}/airlines/125/memos/reduce
Bsp-Token: airlinetoken0125
{"amount":true,"document":"6000000001"}
HTTP 400
{"code":"N04"}

POST {{base}}/airlines/125/memos/reduce
Bsp-Token: airlinetoken0125
`{"amount":007,"document":"6000000001"}`
HTTP 400
{"code":"N04"}

POST {{base}}/airlines/125/memos/reduce
Bsp-Token: airlinetoken0125
{"amount":9223372036854775808,"document":"6000000001"}
HTTP 400
{"code":"N04"}

POST {{base}}/airlines/125/memos/reduce
Bsp-Token: airlinetoken0125
{"amount":-9223372036854775809,"document":"6000000001"}
HTTP 400
{"code":"N04"}

# Texts that nest to a depth of 127 and of 128.
POST {{base}}/office/day
Bsp-Token: officetoken00001
[[[[[[[[[[[[[[[[[[[[[[[[[[[[[[[[[[[[[[[[[[[[[[[[[[[[[[[[[[[[[[[[[[[[[[[[[[[[[[[[[[[[[[[[[[[[[[[[[[[[[[[[[[[[[[[[[[[[[[[[[[[[[[[]]]]]]]]]]]]]]]]]]]]]]]]]]]]]]]]]]]]]]]]]]]]]]]]]]]]]]]]]]]]]]]]]]]]]]]]]]]]]]]]]]]]]]]]]]]]]]]]]]]]]]]]]]]]]]]]]]]]]]]]]]]]]]]
HTTP 400
{"code":"N04"}

POST {{base}}/office/day
Bsp-Token: officetoken00001
[[[[[[[[[[[[[[[[[[[[[[[[[[[[[[[[[[[[[[[[[[[[[[[[[[[[[[[[[[[[[[[[[[[[[[[[[[[[[[[[[[[[[[[[[[[[[[[[[[[[[[[[[[[[[[[[[[[[[[[[[[[[[[[[]]]]]]]]]]]]]]]]]]]]]]]]]]]]]]]]]]]]]]]]]]]]]]]]]]]]]]]]]]]]]]]]]]]]]]]]]]]]]]]]]]]]]]]]]]]]]]]]]]]]]]]]]]]]]]]]]]]]]]]]]]]]]]]]
HTTP 400
{"code":"N04"}
