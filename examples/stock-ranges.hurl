# Ranges are allotted and withdrawn: the order of the refusals.
# after: opening/plan.hurl opening/callers.hurl

# 12345686 is not registered, and 12345674 has a wrong check digit.
POST {{base}}/office/stock/allot
Bsp-Token: officetoken00001
{"agent":"12345686","first":"1300000099","last":"1300000000"}
HTTP 409
{"code":"K01"}

POST {{base}}/office/stock/allot
Bsp-Token: officetoken00001
{"agent":"12345686","first":"1300000000","last":"1300000099"}
HTTP 409
{"code":"K02"}

POST {{base}}/office/stock/allot
Bsp-Token: officetoken00001
{"agent":"12345674","first":"1300000100","last":"1300000199"}
HTTP 409
{"code":"K02"}

POST {{base}}/office/stock/allot
Bsp-Token: officetoken00001
{"agent":"12345675","first":"1300000000","last":"1300000099"}
HTTP 200
{"result":"held"}

POST {{base}}/office/stock/allot
Bsp-Token: officetoken00001
{"agent":"76543213","first":"1300000000","last":"1300000099"}
HTTP 409
{"code":"K03"}

POST {{base}}/office/stock/allot
Bsp-Token: officetoken00001
{"agent":"12345675","first":"1300000099","last":"1300000099"}
HTTP 409
{"code":"K03"}

POST {{base}}/office/stock/allot
Bsp-Token: officetoken00001
{"agent":"12345675","first":"1300000100","last":"1300000100"}
HTTP 200
{"result":"done"}

POST {{base}}/agents/12345675/ret
Bsp-Token: agenttoken000001
file,samples/sale.ret;
HTTP 200
{"results":[{"n":1,"period":"24011","verdict":"accepted"}]}

POST {{base}}/agents/12345675/ret
Bsp-Token: agenttoken000001
file,examples/files/canx.ret;
HTTP 200
{"results":[{"n":1,"period":"24011","verdict":"accepted"}]}

# A number with its CANX counts once.
GET {{base}}/agents/12345675/stock
Bsp-Token: agenttoken000001
HTTP 200
{"ranges":[{"first":"1300000000","last":"1300000099","used":1},{"first":"1300000100","last":"1300000100","used":0}]}

POST {{base}}/office/stock/withdraw
Bsp-Token: officetoken00001
{"agent":"12345686","first":"1300000099","last":"1300000000"}
HTTP 409
{"code":"K01"}

POST {{base}}/office/stock/withdraw
Bsp-Token: officetoken00001
{"agent":"12345686","first":"1300000000","last":"1300000099"}
HTTP 409
{"code":"K02"}

POST {{base}}/office/stock/withdraw
Bsp-Token: officetoken00001
{"agent":"76543213","first":"1300000000","last":"1300000099"}
HTTP 409
{"code":"K04"}

POST {{base}}/office/stock/withdraw
Bsp-Token: officetoken00001
{"agent":"12345675","first":"1300000000","last":"1300000100"}
HTTP 409
{"code":"K04"}

POST {{base}}/office/stock/withdraw
Bsp-Token: officetoken00001
{"agent":"12345675","first":"1300000000","last":"1300000099"}
HTTP 409
{"code":"K05"}

POST {{base}}/office/stock/withdraw
Bsp-Token: officetoken00001
{"agent":"12345675","first":"1300000100","last":"1300000100"}
HTTP 200
{"result":"done"}

POST {{base}}/office/stock/withdraw
Bsp-Token: officetoken00001
{"agent":"12345675","first":"1300000100","last":"1300000100"}
HTTP 409
{"code":"K04"}

GET {{base}}/agents/12345675/stock
Bsp-Token: agenttoken000001
HTTP 200
{"ranges":[{"first":"1300000000","last":"1300000099","used":1}]}
