# Opening: A sells two tickets of its other range, one of which it cancels, and agrees to a memo of 220; 125 owes it another.

POST {{base}}/agents/12345675/ret
Bsp-Token: agenttoken000009
file,examples/files/sales-of-another-a.ret;
HTTP 200
{"results":[{"n":1,"period":"24011","verdict":"accepted"},{"n":2,"period":"24011","verdict":"accepted"},{"n":3,"period":"24011","verdict":"accepted"}]}

POST {{base}}/airlines/220/memos
Bsp-Token: airlinetoken0220
{"agent":"12345675","amount":700,"document":"6000000001","kind":"ADMA","reason":"tax"}
HTTP 200
{"result":"done"}

POST {{base}}/agents/12345675/memos/agree
Bsp-Token: agenttoken000009
{"airline":"220","document":"6000000001"}
HTTP 200
{"result":"done"}

POST {{base}}/airlines/125/memos
Bsp-Token: airlinetoken0125
{"agent":"12345675","amount":900,"document":"6000000002","kind":"ACMA","reason":"refund"}
HTTP 200
{"result":"done"}
