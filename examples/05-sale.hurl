# Example 5: a sale is accepted.
# after: opening/plan.hurl opening/callers.hurl
#
# V1 is a file of one transaction. Posted by A it is answered
# `{"results":[{"n":1,"period":"24011","verdict":"accepted"}]}`.

POST {{base}}/agents/12345675/ret
Bsp-Token: agenttoken000001
file,samples/sale.ret;
HTTP 200
{"results":[{"n":1,"period":"24011","verdict":"accepted"}]}

GET {{base}}/agents/12345675/documents/1300000001
Bsp-Token: agenttoken000001
HTTP 200
{"airline":"125","cash":23500,"code":"TKTT","commission":1000,"credit":0,"issued":"2024-01-05","period":"24011","state":"alive"}

GET {{base}}/agents/12345675/stock
Bsp-Token: agenttoken000001
HTTP 200
{"ranges":[{"first":"1300000000","last":"1300000099","used":1}]}
