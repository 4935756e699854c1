# Opening: as callers.hurl, but A is not registered.

POST {{base}}/office/day
Bsp-Token: officetoken00001
{"day":"2024-01-05"}
HTTP 200
{"result":"done"}

POST {{base}}/office/agents
Bsp-Token: officetoken00001
{"agent":"76543213","token":"agenttoken000002"}
HTTP 200
{"result":"done"}

POST {{base}}/office/airlines
Bsp-Token: officetoken00001
{"airline":"125","token":"airlinetoken0125"}
HTTP 200
{"result":"done"}

POST {{base}}/office/airlines
Bsp-Token: officetoken00001
{"airline":"220","token":"airlinetoken0220"}
HTTP 200
{"result":"done"}

POST {{base}}/office/stock/allot
Bsp-Token: officetoken00001
{"agent":"76543213","first":"1400000000","last":"1400000099"}
HTTP 200
{"result":"done"}
