# Example 23: malformed bodies, one of each request that has a body.
# after: opening/plan.hurl opening/callers.hurl
#
# P01 and P02 have the status 400, the other codes of a plan 409. Any other malformed body is 400 N04, and a RET file
# with a fault 422.

POST {{base}}/office/plan
Bsp-Token: officetoken00001
hex,ff;
HTTP 400
{"code":"P01"}

POST {{base}}/office/day
Bsp-Token: officetoken00001
{}
HTTP 400
{"code":"N04"}

POST {{base}}/office/agents
Bsp-Token: officetoken00001
{}
HTTP 400
{"code":"N04"}

POST {{base}}/office/airlines
Bsp-Token: officetoken00001
{}
HTTP 400
{"code":"N04"}

POST {{base}}/office/stock/allot
Bsp-Token: officetoken00001
{}
HTTP 400
{"code":"N04"}

POST {{base}}/office/stock/withdraw
Bsp-Token: officetoken00001
{}
HTTP 400
{"code":"N04"}

POST {{base}}/office/ret
Bsp-Token: officetoken00001
HTTP 422
{"code":"F08","record":1}

POST {{base}}/office/close
Bsp-Token: officetoken00001
{}
HTTP 400
{"code":"N04"}

POST {{base}}/agents/12345675/ret
Bsp-Token: agenttoken000001
file,examples/files/taxes-falling.ret;
HTTP 422
{"code":"F05","record":3}

POST {{base}}/agents/12345675/memos/dispute
Bsp-Token: agenttoken000001
{}
HTTP 400
{"code":"N04"}

POST {{base}}/agents/12345675/memos/agree
Bsp-Token: agenttoken000001
{}
HTTP 400
{"code":"N04"}

POST {{base}}/airlines/125/memos
Bsp-Token: airlinetoken0125
{}
HTTP 400
{"code":"N04"}

POST {{base}}/airlines/125/memos/uphold
Bsp-Token: airlinetoken0125
{}
HTTP 400
{"code":"N04"}

POST {{base}}/airlines/125/memos/withdraw
Bsp-Token: airlinetoken0125
{}
HTTP 400
{"code":"N04"}

POST {{base}}/airlines/125/memos/reduce
Bsp-Token: airlinetoken0125
{}
HTTP 400
{"code":"N04"}
