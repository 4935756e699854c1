# A token has up to 64 letters and digits, and each counts.

POST {{base}}/office/agents
Bsp-Token: officetoken00001
{"agent":"12345675","token":"0123456789ABCDEFGHIJKLMNOPQRSTUVWXYZabcdefghijklmnopqrstuvwxyz01"}
HTTP 200
{"result":"done"}

GET {{base}}/agents/12345675/stock
Bsp-Token: 0123456789ABCDEFGHIJKLMNOPQRSTUVWXYZabcdefghijklmnopqrstuvwxyz01
HTTP 200
{"ranges":[]}

# One character less, and one letter of the other case.
GET {{base}}/agents/12345675/stock
Bsp-Token: 0123456789ABCDEFGHIJKLMNOPQRSTUVWXYZabcdefghijklmnopqrstuvwxyz0
HTTP 403
{"code":"N01"}

GET {{base}}/agents/12345675/stock
Bsp-Token: 0123456789aBCDEFGHIJKLMNOPQRSTUVWXYZabcdefghijklmnopqrstuvwxyz01
HTTP 403
{"code":"N01"}

POST {{base}}/office/agents
Bsp-Token: officetoken00001
{"agent":"76543213","token":"0123456789ABCDEFGHIJKLMNOPQRSTUVWXYZabcdefghijklmnopqrstuvwxyz012"}
HTTP 400
{"code":"N04"}
