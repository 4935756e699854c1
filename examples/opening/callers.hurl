# Opening: on 2024-01-05 the agents A and B have a range each, and 125 and 220 are registered.

POST {{base}}/office/day
Bsp-Token: officetoken00001
{"day":"2024-01-05"}
HTTP 200
{"result":"done"}

POST {{base}}/office/agents
Bsp-Token: officetoken00001
{"agent":"12345675","token":"agenttoken000001"}
HTTP 200
{"result":"done"}

POST {{base}}/office/agents
Bsp-Token: officetoken00001
{"agent":"76543213","token":"agenttoken000002"}
HTTP 200
{"result":"done"}

POST {{base}}/office/airlines
Bsp-Token: officetoken00001
{"airline":"125","token":"airlinetoken0125"}
HTTP 200
{"result":"done"}

POST {{base}}/office/airlines
Bsp-Token: officetoken00001
{"airline":"220","token":"airlinetoken0220"}
HTTP 200
{"result":"done"}

POST {{base}}/office/stock/allot
Bsp-Token: officetoken00001
{"agent":"12345675","first":"1300000000","last":"1300000099"}
HTTP 200
{"result":"done"}

POST {{base}}/office/stock/allot
Bsp-Token: officetoken00001
{"agent":"76543213","first":"1400000000","last":"1400000099"}
HTTP 200
{"result":"done"}
