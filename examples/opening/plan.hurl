# Opening: the office publishes the plan PL.

POST {{base}}/office/plan
Bsp-Token: officetoken00001
file,samples/plan.toml;
HTTP 200
{"result":"done"}
