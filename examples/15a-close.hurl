# Example 15: a period is closed once it is over, and takes no CANX then.
# after: opening/plan.hurl opening/callers.hurl
#
# On 2024-01-15 a close of 24011 is P07; on 2024-01-16 it is done. The day 2024-01-15 again is P04. Once it is closed
# a CANX of V1's ticket is E09, and V1 is held.

POST {{base}}/agents/12345675/ret
Bsp-Token: agenttoken000001
file,samples/sale.ret;
HTTP 200
{"results":[{"n":1,"period":"24011","verdict":"accepted"}]}

POST {{base}}/office/day
Bsp-Token: officetoken00001
{"day":"2024-01-15"}
HTTP 200
{"result":"done"}

POST {{base}}/office/close
Bsp-Token: officetoken00001
{"period":"24011"}
HTTP 409
{"code":"P07"}

POST {{base}}/office/day
Bsp-Token: officetoken00001
{"day":"2024-01-16"}
HTTP 200
{"result":"done"}

POST {{base}}/office/close
Bsp-Token: officetoken00001
{"period":"24012"}
HTTP 409
{"code":"P06"}

POST {{base}}/office/close
Bsp-Token: officetoken00001
{"period":"24011"}
HTTP 200
{"result":"done"}

POST {{base}}/agents/12345675/ret
Bsp-Token: agenttoken000001
file,examples/files/canx.ret;
HTTP 200
{"results":[{"n":1,"verdict":"E09"}]}

POST {{base}}/office/day
Bsp-Token: officetoken00001
{"day":"2024-01-15"}
HTTP 409
{"code":"P04"}

POST {{base}}/office/close
Bsp-Token: officetoken00001
{"period":"24011"}
HTTP 200
{"result":"held"}

# The sale of the closed period is held there.
POST {{base}}/agents/12345675/ret
Bsp-Token: agenttoken000001
file,samples/sale.ret;
HTTP 200
{"results":[{"n":1,"period":"24011","verdict":"held"}]}
