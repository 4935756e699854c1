# Opening: A sells 1300000001, and disputes a memo.

POST {{base}}/agents/12345675/ret
Bsp-Token: agenttoken000001
file,samples/sale.ret;
HTTP 200
{"results":[{"n":1,"period":"24011","verdict":"accepted"}]}

POST {{base}}/airlines/125/memos
Bsp-Token: airlinetoken0125
{"agent":"12345675","amount":5000,"document":"6000000001","kind":"ADMA","reason":"fare"}
HTTP 200
{"result":"done"}

POST {{base}}/agents/12345675/memos/dispute
Bsp-Token: agenttoken000001
{"airline":"125","document":"6000000001"}
HTTP 200
{"result":"done"}
