# Example 19: unused ranges are withdrawn.
# after: opening/plan.hurl opening/callers.hurl
#
# Allot 1300000050 to 1300000150 to B: 409 K03. With V1 reported, withdraw A's range: K05. Withdraw 1300000000 to
# 1300000050 of A: K04. Withdraw B's unused range: done.

POST {{base}}/office/stock/allot
Bsp-Token: officetoken00001
{"agent":"76543213","first":"1300000050","last":"1300000150"}
HTTP 409
{"code":"K03"}

POST {{base}}/agents/12345675/ret
Bsp-Token: agenttoken000001
file,samples/sale.ret;
HTTP 200
{"results":[{"n":1,"period":"24011","verdict":"accepted"}]}

POST {{base}}/office/stock/withdraw
Bsp-Token: officetoken00001
{"agent":"12345675","first":"1300000000","last":"1300000099"}
HTTP 409
{"code":"K05"}

POST {{base}}/office/stock/withdraw
Bsp-Token: officetoken00001
{"agent":"12345675","first":"1300000000","last":"1300000050"}
HTTP 409
{"code":"K04"}

POST {{base}}/office/stock/withdraw
Bsp-Token: officetoken00001
{"agent":"76543213","first":"1400000000","last":"1400000099"}
HTTP 200
{"result":"done"}

GET {{base}}/agents/12345675/stock
Bsp-Token: agenttoken000001
HTTP 200
{"ranges":[{"first":"1300000000","last":"1300000099","used":1}]}

GET {{base}}/agents/76543213/stock
Bsp-Token: agenttoken000002
HTTP 200
{"ranges":[]}
