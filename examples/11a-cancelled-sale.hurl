# Example 11: a cancelled sale that is reported again stays cancelled.
# after: opening/plan.hurl opening/callers.hurl
#
# The net of the period is then `0.00`, and the state of 1300000001 `cancelled`.

POST {{base}}/agents/12345675/ret
Bsp-Token: agenttoken000001
file,samples/sale-and-cancellation.ret;
HTTP 200
{"results":[{"n":1,"period":"24011","verdict":"accepted"},{"n":2,"period":"24011","verdict":"accepted"}]}

POST {{base}}/agents/12345675/ret
Bsp-Token: agenttoken000001
file,samples/sale-and-cancellation.ret;
HTTP 200
{"results":[{"n":1,"period":"24011","verdict":"held"},{"n":2,"period":"24011","verdict":"held"}]}

POST {{base}}/agents/12345675/ret
Bsp-Token: agenttoken000001
file,samples/sale.ret;
HTTP 200
{"results":[{"n":1,"period":"24011","verdict":"held"}]}

POST {{base}}/agents/12345675/ret
Bsp-Token: agenttoken000001
file,examples/files/other-passenger.ret;
HTTP 200
{"results":[{"n":1,"verdict":"E06"}]}

GET {{base}}/agents/12345675/periods/24011
Bsp-Token: agenttoken000001
HTTP 200
{"closed":false,"documents":0,"net":"0.00","period":"24011"}

GET {{base}}/agents/12345675/documents/1300000001
Bsp-Token: agenttoken000001
HTTP 200
{"airline":"125","cash":23500,"code":"TKTT","commission":1000,"credit":0,"issued":"2024-01-05","period":"24011","state":"cancelled"}

# A number that is cancelled before its sale.
POST {{base}}/agents/12345675/ret
Bsp-Token: agenttoken000001
file,examples/files/canx-of-5.ret;
HTTP 200
{"results":[{"n":1,"period":"24011","verdict":"accepted"}]}

POST {{base}}/agents/12345675/ret
Bsp-Token: agenttoken000001
file,examples/files/sale-of-5.ret;
HTTP 200
{"results":[{"n":1,"verdict":"E06"}]}

GET {{base}}/agents/12345675/documents/1300000005
Bsp-Token: agenttoken000001
HTTP 200
{"airline":"125","cash":0,"code":"CANX","commission":0,"credit":0,"issued":"2024-01-05","period":"24011","state":"cancelled"}
