# The office cancels a sale that the agent reported.
# after: opening/plan.hurl opening/callers.hurl

POST {{base}}/agents/12345675/ret
Bsp-Token: agenttoken000001
file,samples/sale.ret;
HTTP 200
{"results":[{"n":1,"period":"24011","verdict":"accepted"}]}

POST {{base}}/office/ret
Bsp-Token: officetoken00001
file,examples/files/sale-canx-sale.ret;
HTTP 200
{"results":[{"n":1,"period":"24011","verdict":"held"},{"n":2,"period":"24011","verdict":"accepted"},{"n":3,"period":"24011","verdict":"held"}]}
