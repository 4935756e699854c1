# Two tickets and their exchange are accepted once, each with its tax; a file at fault, and another caller's token.
# after: opening/plan-with-half.hurl opening/callers.hurl

POST {{base}}/agents/12345675/ret
Bsp-Token: agenttoken000001
file,samples/exchange-of-two.ret;
HTTP 200
{"results":[{"n":1,"period":"24011","verdict":"accepted"},{"n":2,"period":"24011","verdict":"accepted"},{"n":3,"period":"24011","verdict":"accepted"}]}

GET {{base}}/agents/12345675/periods/24011
Bsp-Token: agenttoken000001
HTTP 200
{"closed":false,"documents":3,"net":"486.25","period":"24011"}

POST {{base}}/agents/12345675/ret
Bsp-Token: agenttoken000001
file,samples/exchange-of-two.ret;
HTTP 200
{"results":[{"n":1,"period":"24011","verdict":"held"},{"n":2,"period":"24011","verdict":"held"},{"n":3,"period":"24011","verdict":"held"}]}

POST {{base}}/agents/12345675/ret
Bsp-Token: agenttoken000001
file,examples/files/two-related-falling.ret;
HTTP 422
{"code":"F05","record":4}

POST {{base}}/agents/12345675/ret
Bsp-Token: officetoken00001
file,samples/exchange-of-two.ret;
HTTP 403
{"code":"N01"}
