# A plan in other spellings of TOML is the plan PL.

POST {{base}}/office/plan
Bsp-Token: officetoken00001
file,examples/files/plan-spelled.toml;
HTTP 200
{"result":"done"}

POST {{base}}/office/plan
Bsp-Token: officetoken00001
file,samples/plan.toml;
HTTP 200
{"result":"held"}

POST {{base}}/office/day
Bsp-Token: officetoken00001
{"day":"2024-01-05"}
HTTP 200
{"result":"done"}

POST {{base}}/office/plan
Bsp-Token: officetoken00001
file,examples/files/plan-spelled.toml;
HTTP 200
{"result":"held"}
