# A period that is not closed, or that nobody knows, has no reports.
# after: opening/plan.hurl opening/callers.hurl

GET {{base}}/office/settlement/24011
Bsp-Token: officetoken00001
HTTP 409
{"code":"S01"}

GET {{base}}/agents/12345675/statements/24011
Bsp-Token: agenttoken000001
HTTP 409
{"code":"S01"}

GET {{base}}/airlines/125/hot/24011
Bsp-Token: airlinetoken0125
HTTP 409
{"code":"H02"}

GET {{base}}/office/settlement/24021
Bsp-Token: officetoken00001
HTTP 409
{"code":"S01"}

GET {{base}}/agents/12345675/periods/24021
Bsp-Token: agenttoken000001
HTTP 409
{"code":"S01"}

GET {{base}}/agents/12345675/periods/x
Bsp-Token: agenttoken000001
HTTP 409
{"code":"S01"}

GET {{base}}/airlines/125/hot/x
Bsp-Token: airlinetoken0125
HTTP 409
{"code":"H02"}

GET {{base}}/agents/12345675/statements/24021
Bsp-Token: agenttoken000001
HTTP 409
{"code":"S01"}

GET {{base}}/airlines/125/hot/24021
Bsp-Token: airlinetoken0125
HTTP 409
{"code":"H02"}

# Once 24011 is closed, 24012 is not.
POST {{base}}/office/day
Bsp-Token: officetoken00001
{"day":"2024-01-16"}
HTTP 200
{"result":"done"}

POST {{base}}/office/close
Bsp-Token: officetoken00001
{"period":"24011"}
HTTP 200
{"result":"done"}

GET {{base}}/office/settlement/24012
Bsp-Token: officetoken00001
HTTP 409
{"code":"S01"}

GET {{base}}/agents/12345675/statements/24012
Bsp-Token: agenttoken000001
HTTP 409
{"code":"S01"}

GET {{base}}/airlines/125/hot/24012
Bsp-Token: airlinetoken0125
HTTP 409
{"code":"H02"}

GET {{base}}/agents/12345675/periods/24012
Bsp-Token: agenttoken000001
HTTP 200
{"closed":false,"documents":0,"net":"0.00","period":"24012"}
