# An airline is registered once it is in the plan; an agent's code has its check digit.

POST {{base}}/office/airlines
Bsp-Token: officetoken00001
{"airline":"125","token":"airlinetoken00001"}
HTTP 409
{"code":"N06"}

POST {{base}}/office/plan
Bsp-Token: officetoken00001
file,samples/plan.toml;
HTTP 200
{"result":"done"}

POST {{base}}/office/airlines
Bsp-Token: officetoken00001
{"airline":"125","token":"airlinetoken00001"}
HTTP 200
{"result":"done"}

POST {{base}}/office/airlines
Bsp-Token: officetoken00001
{"airline":"125","token":"airlinetoken00001"}
HTTP 200
{"result":"held"}

POST {{base}}/office/airlines
Bsp-Token: officetoken00001
{"airline":"125"}
HTTP 400
{"code":"N04"}

POST {{base}}/office/agents
Bsp-Token: officetoken00001
{"agent":"12345674","token":"agenttoken000001"}
HTTP 409
{"code":"N05"}
