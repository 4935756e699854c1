# Examples 7 and 24: a sale that is reported again is held.
# after: opening/plan.hurl opening/callers.hurl
#
# V1 twice: the second reply is `{"results":[{"n":1,"period":"24011","verdict":"held"}]}`. The period 24011 of A is
# before and after it `{"closed":false,"documents":1,"net":"225.00","period":"24011"}`.

POST {{base}}/agents/12345675/ret
Bsp-Token: agenttoken000001
file,samples/sale.ret;
HTTP 200
{"results":[{"n":1,"period":"24011","verdict":"accepted"}]}

GET {{base}}/agents/12345675/periods/24011
Bsp-Token: agenttoken000001
HTTP 200
{"closed":false,"documents":1,"net":"225.00","period":"24011"}

POST {{base}}/agents/12345675/ret
Bsp-Token: agenttoken000001
file,samples/sale.ret;
HTTP 200
{"results":[{"n":1,"period":"24011","verdict":"held"}]}

GET {{base}}/agents/12345675/periods/24011
Bsp-Token: agenttoken000001
HTTP 200
{"closed":false,"documents":1,"net":"225.00","period":"24011"}
