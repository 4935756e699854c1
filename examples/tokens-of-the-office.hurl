# Each request of the office needs its token.
# after: opening/plan.hurl opening/callers.hurl

POST {{base}}/office/plan
Bsp-Token: agenttoken000001
file,samples/plan.toml;
HTTP 403
{"code":"N01"}

POST {{base}}/office/day
Bsp-Token: agenttoken000001
{"day":"2024-01-05"}
HTTP 403
{"code":"N01"}

POST {{base}}/office/agents
Bsp-Token: agenttoken000001
{"agent":"12345675","token":"agenttoken000001"}
HTTP 403
{"code":"N01"}

POST {{base}}/office/airlines
Bsp-Token: agenttoken000001
{"airline":"125","token":"airlinetoken0125"}
HTTP 403
{"code":"N01"}

POST {{base}}/office/stock/allot
Bsp-Token: agenttoken000001
{"agent":"12345675","first":"1300000000","last":"1300000099"}
HTTP 403
{"code":"N01"}

POST {{base}}/office/stock/withdraw
Bsp-Token: agenttoken000001
{"agent":"12345675","first":"1300000000","last":"1300000099"}
HTTP 403
{"code":"N01"}

POST {{base}}/office/ret
Bsp-Token: agenttoken000001
file,samples/sale.ret;
HTTP 403
{"code":"N01"}

POST {{base}}/office/close
Bsp-Token: agenttoken000001
{"period":"24011"}
HTTP 403
{"code":"N01"}

GET {{base}}/office/settlement/24011
HTTP 403
{"code":"N01"}
