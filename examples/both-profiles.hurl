# A transaction that is reported in both profiles is the same one.
# after: opening/plan.hurl opening/callers.hurl
#
# A transaction that is reported in both profiles is held.

POST {{base}}/agents/12345675/ret
Bsp-Token: agenttoken000001
file,examples/files/no-sales-in-002.ret;
HTTP 200
{"results":[]}

POST {{base}}/agents/12345675/ret
Bsp-Token: agenttoken000001
file,samples/sale.ret;
HTTP 200
{"results":[{"n":1,"period":"24011","verdict":"accepted"}]}

POST {{base}}/agents/12345675/ret
Bsp-Token: agenttoken000001
file,samples/exchange.ret;
HTTP 200
{"results":[{"n":1,"period":"24011","verdict":"accepted"}]}

# The sale, its exchange, a refund of a part of the exchange, and the CANX of an unused number.
POST {{base}}/agents/12345675/ret
Bsp-Token: agenttoken000001
file,examples/files/both-in-002.ret;
HTTP 200
{"results":[{"n":1,"period":"24011","verdict":"held"},{"n":2,"period":"24011","verdict":"held"},{"n":3,"period":"24011","verdict":"accepted"},{"n":4,"period":"24011","verdict":"accepted"}]}

POST {{base}}/agents/12345675/ret
Bsp-Token: agenttoken000001
file,samples/exchange.ret;
HTTP 200
{"results":[{"n":1,"period":"24011","verdict":"held"}]}

GET {{base}}/agents/12345675/periods/24011
Bsp-Token: agenttoken000001
HTTP 200
{"closed":false,"documents":3,"net":"47.50","period":"24011"}

POST {{base}}/agents/12345675/ret
Bsp-Token: agenttoken000001
file,examples/files/both-in-002.ret;
HTTP 200
{"results":[{"n":1,"period":"24011","verdict":"held"},{"n":2,"period":"24011","verdict":"held"},{"n":3,"period":"24011","verdict":"held"},{"n":4,"period":"24011","verdict":"held"}]}
