# Example 32: a refund and an exchange agree with their ticket.
# after: opening/plan.hurl opening/callers.hurl
#
# V1's sale is there. A refund with fare -20001, RA -3500, rate 00500, commission -1000, CA -23501 is E12. One with
# fare -10000, no tax, commission -500, CA -10000 is accepted, with a net of -9500. An exchange with fare 15000, RA
# 3500, EX 23500, CA -5000 is E07.

# What differs from the ticket in one value; then half a refund, and what may not follow it.
POST {{base}}/agents/12345675/ret
Bsp-Token: agenttoken000001
file,examples/files/within-ticket.ret;
HTTP 200
{"results":[{"n":1,"period":"24011","verdict":"accepted"},{"n":2,"verdict":"E12"},{"n":3,"verdict":"E07"},{"n":4,"verdict":"E12"},{"n":5,"verdict":"E12"},{"n":6,"verdict":"E12"},{"n":7,"verdict":"E12"},{"n":8,"verdict":"E12"},{"n":9,"verdict":"E12"},{"n":10,"period":"24011","verdict":"accepted"},{"n":11,"verdict":"E09"},{"n":12,"verdict":"E09"},{"n":13,"verdict":"E09"}]}

GET {{base}}/agents/12345675/documents/1300000001
Bsp-Token: agenttoken000001
HTTP 200
{"airline":"125","cash":23500,"code":"TKTT","commission":1000,"credit":0,"issued":"2024-01-05","period":"24011","state":"refunded"}

GET {{base}}/agents/12345675/documents/1300000002
Bsp-Token: agenttoken000001
HTTP 200
{"airline":"125","cash":-10000,"code":"RFND","commission":-500,"credit":0,"issued":"2024-01-05","period":"24011","state":"alive"}

GET {{base}}/agents/12345675/periods/24011
Bsp-Token: agenttoken000001
HTTP 200
{"closed":false,"documents":2,"net":"130.00","period":"24011"}

# The refund counts as a document, and takes off.
POST {{base}}/office/day
Bsp-Token: officetoken00001
{"day":"2024-01-16"}
HTTP 200
{"result":"done"}

POST {{base}}/office/close
Bsp-Token: officetoken00001
{"period":"24011"}
HTTP 200
{"result":"done"}

GET {{base}}/agents/12345675/statements/24011
Bsp-Token: agenttoken000001
HTTP 200
```
STATEMENT 12345675 PERIOD 24011 REMIT 2024-02-15 EUR
AIR    DOCS            CASH          CREDIT      COMMISSION           MEMOS             NET
125       2          135.00            0.00            5.00            0.00          130.00
TOT       2          135.00            0.00            5.00            0.00          130.00
```
