# Opening: the office publishes the plan PL with a tax on commission of 19.00 % from 2024-01-16 on.

POST {{base}}/office/plan
Bsp-Token: officetoken00001
file,samples/commission-tax.toml;
HTTP 200
{"result":"done"}
