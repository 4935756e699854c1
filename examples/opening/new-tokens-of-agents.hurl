# Opening: the agents A and B are given new tokens.

POST {{base}}/office/agents
Bsp-Token: officetoken00001
{"agent":"12345675","token":"agenttoken000003"}
HTTP 200
{"result":"done"}

POST {{base}}/office/agents
Bsp-Token: officetoken00001
{"agent":"76543213","token":"agenttoken000004"}
HTTP 200
{"result":"done"}
