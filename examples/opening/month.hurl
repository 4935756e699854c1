# Opening: A sells for 125 and 220, both airlines issue a memo, and 24011 is closed.

POST {{base}}/agents/12345675/ret
Bsp-Token: agenttoken000001
file,samples/sale.ret;
HTTP 200
{"results":[{"n":1,"period":"24011","verdict":"accepted"}]}

POST {{base}}/agents/12345675/ret
Bsp-Token: agenttoken000001
file,samples/card-sale.ret;
HTTP 200
{"results":[{"n":1,"period":"24011","verdict":"accepted"}]}

POST {{base}}/airlines/220/memos
Bsp-Token: airlinetoken0220
{"agent":"12345675","amount":3000,"document":"7000000001","kind":"ADMA","reason":"RATE OF MARCH"}
HTTP 200
{"result":"done"}

POST {{base}}/agents/12345675/memos/agree
Bsp-Token: agenttoken000001
{"airline":"220","document":"7000000001"}
HTTP 200
{"result":"done"}

POST {{base}}/airlines/125/memos
Bsp-Token: airlinetoken0125
{"agent":"76543213","amount":5000,"document":"6000000001","kind":"ACMA","reason":"RATE OF MARCH"}
HTTP 200
{"result":"done"}

POST {{base}}/office/day
Bsp-Token: officetoken00001
{"day":"2024-01-16"}
HTTP 200
{"result":"done"}

POST {{base}}/office/close
Bsp-Token: officetoken00001
{"period":"24011"}
HTTP 200
{"result":"done"}
