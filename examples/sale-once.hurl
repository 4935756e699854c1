# A sale is accepted once; a part of its file is at fault, and the office's token is no agent's.
# after: opening/plan.hurl opening/callers.hurl

POST {{base}}/agents/12345675/ret
Bsp-Token: agenttoken000001
file,samples/sale.ret;
HTTP 200
{"results":[{"n":1,"period":"24011","verdict":"accepted"}]}

GET {{base}}/agents/12345675/periods/24011
Bsp-Token: agenttoken000001
HTTP 200
{"closed":false,"documents":1,"net":"225.00","period":"24011"}

POST {{base}}/agents/12345675/ret
Bsp-Token: agenttoken000001
file,samples/sale.ret;
HTTP 200
{"results":[{"n":1,"period":"24011","verdict":"held"}]}

POST {{base}}/agents/12345675/ret
Bsp-Token: agenttoken000001
file,examples/files/sale-cut.ret;
HTTP 422
{"code":"F01","record":5}

POST {{base}}/agents/12345675/ret
Bsp-Token: officetoken00001
file,samples/sale.ret;
HTTP 403
{"code":"N01"}
