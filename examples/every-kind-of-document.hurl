# The HOT file of 125 has every kind of document, in its order, and nothing of others.
# after: opening/plan.hurl opening/callers.hurl opening/memos.hurl

# B's sale; A's sales, a refund, an exchange and a CANX; memos that are reduced and of credit.
POST {{base}}/agents/76543213/ret
Bsp-Token: agenttoken000002
file,examples/files/sale-of-b.ret;
HTTP 200
{"results":[{"n":1,"period":"24011","verdict":"accepted"}]}

POST {{base}}/office/day
Bsp-Token: officetoken00001
{"day":"2024-01-07"}
HTTP 200
{"result":"done"}

POST {{base}}/agents/12345675/ret
Bsp-Token: agenttoken000001
file,examples/files/kinds.ret;
HTTP 200
{"results":[{"n":1,"period":"24011","verdict":"accepted"},{"n":2,"period":"24011","verdict":"accepted"},{"n":3,"period":"24011","verdict":"accepted"},{"n":4,"period":"24011","verdict":"accepted"},{"n":5,"period":"24011","verdict":"accepted"},{"n":6,"period":"24011","verdict":"accepted"}]}

POST {{base}}/agents/12345675/memos/dispute
Bsp-Token: agenttoken000001
{"airline":"125","document":"6000000001"}
HTTP 200
{"result":"done"}

POST {{base}}/airlines/125/memos/reduce
Bsp-Token: airlinetoken0125
{"amount":3000,"document":"6000000001"}
HTTP 200
{"result":"done"}

# What is of 220, of the next period or not billed is not in the file; nor is the sale that was cancelled.
POST {{base}}/agents/12345675/ret
Bsp-Token: agenttoken000001
file,samples/card-sale.ret;
HTTP 200
{"results":[{"n":1,"period":"24011","verdict":"accepted"}]}

POST {{base}}/airlines/220/memos
Bsp-Token: airlinetoken0220
{"agent":"12345675","amount":700,"document":"6000000004","kind":"ADMA","reason":"fare"}
HTTP 200
{"result":"done"}

POST {{base}}/agents/12345675/memos/agree
Bsp-Token: agenttoken000001
{"airline":"220","document":"6000000004"}
HTTP 200
{"result":"done"}

POST {{base}}/office/day
Bsp-Token: officetoken00001
{"day":"2024-01-16"}
HTTP 200
{"result":"done"}

POST {{base}}/office/close
Bsp-Token: officetoken00001
{"period":"24011"}
HTTP 200
{"result":"done"}

POST {{base}}/agents/12345675/ret
Bsp-Token: agenttoken000001
file,examples/files/three-days.ret;
HTTP 200
{"results":[{"n":1,"period":"24012","verdict":"accepted"},{"n":2,"period":"24012","verdict":"accepted"},{"n":3,"verdict":"E04"}]}

GET {{base}}/airlines/125/hot/24011
Bsp-Token: airlinetoken0125
HTTP 200
file,examples/files/125-kinds.hot;
