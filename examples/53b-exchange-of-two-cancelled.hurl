# Example 53: a CANX of the exchange gives both tickets back.
# after: opening/plan.hurl opening/callers.hurl
#
# Before the close the CANX of 1300000013-4 is accepted, then the refund 1300000014-5 of 1300000011, and one of
# 1300000012.

POST {{base}}/agents/12345675/ret
Bsp-Token: agenttoken000001
file,samples/exchange-of-two.ret;
HTTP 200
{"results":[{"n":1,"period":"24011","verdict":"accepted"},{"n":2,"period":"24011","verdict":"accepted"},{"n":3,"period":"24011","verdict":"accepted"}]}

POST {{base}}/agents/12345675/ret
Bsp-Token: agenttoken000001
file,examples/files/canx-of-13.ret;
HTTP 200
{"results":[{"n":1,"period":"24011","verdict":"accepted"}]}

GET {{base}}/agents/12345675/periods/24011
Bsp-Token: agenttoken000001
HTTP 200
{"closed":false,"documents":2,"net":"450.00","period":"24011"}

GET {{base}}/agents/12345675/documents/1300000013
Bsp-Token: agenttoken000001
HTTP 200
{"airline":"125","cash":5000,"code":"TKTT","commission":250,"credit":0,"issued":"2024-01-05","period":"24011","state":"cancelled"}

GET {{base}}/agents/12345675/documents/1300000011
Bsp-Token: agenttoken000001
HTTP 200
{"airline":"125","cash":23500,"code":"TKTT","commission":1000,"credit":0,"issued":"2024-01-05","period":"24011","state":"alive"}

GET {{base}}/agents/12345675/documents/1300000012
Bsp-Token: agenttoken000001
HTTP 200
{"airline":"125","cash":23500,"code":"TKTT","commission":1000,"credit":0,"issued":"2024-01-05","period":"24011","state":"alive"}

POST {{base}}/agents/12345675/ret
Bsp-Token: agenttoken000001
file,examples/files/refund-of-11.ret;
HTTP 200
{"results":[{"n":1,"period":"24011","verdict":"accepted"}]}

POST {{base}}/agents/12345675/ret
Bsp-Token: agenttoken000001
file,examples/files/refund-of-12.ret;
HTTP 200
{"results":[{"n":1,"period":"24011","verdict":"accepted"}]}

GET {{base}}/agents/12345675/documents/1300000011
Bsp-Token: agenttoken000001
HTTP 200
{"airline":"125","cash":23500,"code":"TKTT","commission":1000,"credit":0,"issued":"2024-01-05","period":"24011","state":"refunded"}

GET {{base}}/agents/12345675/documents/1300000012
Bsp-Token: agenttoken000001
HTTP 200
{"airline":"125","cash":23500,"code":"TKTT","commission":1000,"credit":0,"issued":"2024-01-05","period":"24011","state":"refunded"}

GET {{base}}/agents/12345675/periods/24011
Bsp-Token: agenttoken000001
HTTP 200
{"closed":false,"documents":4,"net":"0.00","period":"24011"}

# The cancelled exchange is held when it is reported again.
POST {{base}}/agents/12345675/ret
Bsp-Token: agenttoken000001
file,samples/exchange-of-two.ret;
HTTP 200
{"results":[{"n":1,"period":"24011","verdict":"held"},{"n":2,"period":"24011","verdict":"held"},{"n":3,"period":"24011","verdict":"held"}]}
