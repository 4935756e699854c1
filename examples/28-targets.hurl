# Example 28: a sale is accepted in the earliest period that is not closed and not over on its day.
# after: opening/plan.hurl
#
# On 2023-12-31 a sale of that day is E10, and on 2024-01-01 it is accepted in 24011. On 2024-01-16 a sale of
# 2024-01-05 is accepted in 24011, one of 2024-01-16 in 24012. A close of 24012 or of 24021, which nobody knows, is
# P06, of 24011 done; then another sale of 2024-01-05 is accepted in 24012. On 2024-02-05 a sale of 2024-02-03 is E10;
# so is one of 2024-01-05 once 24012 is closed.

POST {{base}}/office/day
Bsp-Token: officetoken00001
{"day":"2023-12-31"}
HTTP 200
{"result":"done"}

POST {{base}}/office/agents
Bsp-Token: officetoken00001
{"agent":"12345675","token":"agenttoken000001"}
HTTP 200
{"result":"done"}

POST {{base}}/office/stock/allot
Bsp-Token: officetoken00001
{"agent":"12345675","first":"1300000000","last":"1300000099"}
HTTP 200
{"result":"done"}

# Sales of 2023-12-31, 2024-01-16 and 2024-02-03. No period has begun.
POST {{base}}/agents/12345675/ret
Bsp-Token: agenttoken000001
file,examples/files/three-days.ret;
HTTP 200
{"results":[{"n":1,"verdict":"E10"},{"n":2,"verdict":"E04"},{"n":3,"verdict":"E04"}]}

POST {{base}}/office/day
Bsp-Token: officetoken00001
{"day":"2024-01-01"}
HTTP 200
{"result":"done"}

POST {{base}}/agents/12345675/ret
Bsp-Token: agenttoken000001
file,examples/files/three-days.ret;
HTTP 200
{"results":[{"n":1,"period":"24011","verdict":"accepted"},{"n":2,"verdict":"E04"},{"n":3,"verdict":"E04"}]}

POST {{base}}/office/day
Bsp-Token: officetoken00001
{"day":"2024-01-15"}
HTTP 200
{"result":"done"}

POST {{base}}/agents/12345675/ret
Bsp-Token: agenttoken000001
file,samples/sale.ret;
HTTP 200
{"results":[{"n":1,"period":"24011","verdict":"accepted"}]}

POST {{base}}/office/close
Bsp-Token: officetoken00001
{"period":"24011"}
HTTP 409
{"code":"P07"}

# On 2024-01-16 24011 is over and not closed: it still takes what was issued in it.
POST {{base}}/office/day
Bsp-Token: officetoken00001
{"day":"2024-01-16"}
HTTP 200
{"result":"done"}

POST {{base}}/agents/12345675/ret
Bsp-Token: agenttoken000001
file,examples/files/three-days.ret;
HTTP 200
{"results":[{"n":1,"period":"24011","verdict":"held"},{"n":2,"period":"24012","verdict":"accepted"},{"n":3,"verdict":"E04"}]}

POST {{base}}/agents/12345675/ret
Bsp-Token: agenttoken000001
file,examples/files/three-sales.ret;
HTTP 200
{"results":[{"n":1,"period":"24011","verdict":"held"},{"n":2,"period":"24011","verdict":"accepted"},{"n":3,"period":"24011","verdict":"accepted"}]}

POST {{base}}/office/close
Bsp-Token: officetoken00001
{"period":"24012"}
HTTP 409
{"code":"P06"}

POST {{base}}/office/close
Bsp-Token: officetoken00001
{"period":"24021"}
HTTP 409
{"code":"P06"}

POST {{base}}/office/close
Bsp-Token: officetoken00001
{"period":"24011"}
HTTP 200
{"result":"done"}

POST {{base}}/agents/12345675/ret
Bsp-Token: agenttoken000001
file,examples/files/sale-of-5.ret;
HTTP 200
{"results":[{"n":1,"period":"24012","verdict":"accepted"}]}

POST {{base}}/agents/12345675/ret
Bsp-Token: agenttoken000001
file,examples/files/three-sales.ret;
HTTP 200
{"results":[{"n":1,"period":"24011","verdict":"held"},{"n":2,"period":"24011","verdict":"held"},{"n":3,"period":"24011","verdict":"held"}]}

POST {{base}}/office/day
Bsp-Token: officetoken00001
{"day":"2024-01-31"}
HTTP 200
{"result":"done"}

POST {{base}}/office/close
Bsp-Token: officetoken00001
{"period":"24012"}
HTTP 409
{"code":"P07"}

# No period is for a sale of 2024-02-03, and none is left once both are closed.
POST {{base}}/office/day
Bsp-Token: officetoken00001
{"day":"2024-02-05"}
HTTP 200
{"result":"done"}

POST {{base}}/agents/12345675/ret
Bsp-Token: agenttoken000001
file,examples/files/three-days.ret;
HTTP 200
{"results":[{"n":1,"period":"24011","verdict":"held"},{"n":2,"period":"24012","verdict":"held"},{"n":3,"verdict":"E10"}]}

POST {{base}}/office/close
Bsp-Token: officetoken00001
{"period":"24012"}
HTTP 200
{"result":"done"}

POST {{base}}/agents/12345675/ret
Bsp-Token: agenttoken000001
file,samples/card-sale.ret;
HTTP 200
{"results":[{"n":1,"verdict":"E10"}]}

POST {{base}}/agents/12345675/ret
Bsp-Token: agenttoken000001
file,examples/files/three-days.ret;
HTTP 200
{"results":[{"n":1,"period":"24011","verdict":"held"},{"n":2,"period":"24012","verdict":"held"},{"n":3,"verdict":"E10"}]}

POST {{base}}/office/close
Bsp-Token: officetoken00001
{"period":"24021"}
HTTP 409
{"code":"P06"}
