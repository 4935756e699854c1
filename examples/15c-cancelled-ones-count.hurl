# Example 15: the documents limit counts a cancelled sale and its CANX.
# after: opening/plan-limit-2.hurl opening/callers.hurl
#
# A cancelled sale and its CANX are two documents.

POST {{base}}/agents/12345675/ret
Bsp-Token: agenttoken000001
file,samples/sale-and-cancellation.ret;
HTTP 200
{"results":[{"n":1,"period":"24011","verdict":"accepted"},{"n":2,"period":"24011","verdict":"accepted"}]}

POST {{base}}/agents/12345675/ret
Bsp-Token: agenttoken000001
file,examples/files/sale-of-5.ret;
HTTP 200
{"results":[{"n":1,"verdict":"E11"}]}

POST {{base}}/agents/12345675/ret
Bsp-Token: agenttoken000001
file,samples/card-sale.ret;
HTTP 200
{"results":[{"n":1,"period":"24011","verdict":"accepted"}]}

POST {{base}}/agents/12345675/ret
Bsp-Token: agenttoken000001
file,samples/sale-and-cancellation.ret;
HTTP 200
{"results":[{"n":1,"period":"24011","verdict":"held"},{"n":2,"period":"24011","verdict":"held"}]}
