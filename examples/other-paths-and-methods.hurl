# Other paths and methods are refused, whatever the token.

GET {{base}}/office/x
Bsp-Token: officetoken00001
HTTP 404
{"code":"N02"}

GET {{base}}/agents
Bsp-Token: officetoken00001
HTTP 404
{"code":"N02"}

GET {{base}}/office/settlement/24011?text
HTTP 404
{"code":"N02"}

GET {{base}}/agents/12345675/stock/
Bsp-Token: agenttoken000001
HTTP 404
{"code":"N02"}

GET {{base}}/office/day
Bsp-Token: officetoken00001
HTTP 405
Allow: POST
{"code":"N03"}

POST {{base}}/agents/12345675/stock
{}
HTTP 405
Allow: GET
{"code":"N03"}

GET {{base}}/airlines/125/memos/uphold
HTTP 405
Allow: POST
{"code":"N03"}

# Words and values that are missing, empty, too many, in other letters or escaped; and a query.
GET {{base}}/
HTTP 404
{"code":"N02"}

GET {{base}}//office/plan
HTTP 404
{"code":"N02"}

GET {{base}}/office/plan/
HTTP 404
{"code":"N02"}

GET {{base}}/office/plan?
HTTP 404
{"code":"N02"}

GET {{base}}/Office/plan
HTTP 404
{"code":"N02"}

GET {{base}}/office/day?day=2024-01-05
HTTP 404
{"code":"N02"}

GET {{base}}/office/settlement
HTTP 404
{"code":"N02"}

GET {{base}}/office/settlement/
HTTP 404
{"code":"N02"}

GET {{base}}/office/settlement/24011/
HTTP 404
{"code":"N02"}

GET {{base}}/office/settlement/24%3011
HTTP 404
{"code":"N02"}

GET {{base}}/agents/12345675
HTTP 404
{"code":"N02"}

GET {{base}}/agents//documents/1300000001
HTTP 404
{"code":"N02"}

GET {{base}}/agents/12345675/documents/
HTTP 404
{"code":"N02"}

GET {{base}}/agents/12345675/documents/1/2
HTTP 404
{"code":"N02"}

GET {{base}}/agents/%31/stock
HTTP 404
{"code":"N02"}

GET {{base}}/airlines/125/hot
HTTP 404
{"code":"N02"}

POST {{base}}/office/plan/
Bsp-Token: officetoken00001
file,samples/plan.toml;
HTTP 404
{"code":"N02"}
