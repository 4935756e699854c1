# Example 53: an exchange takes two tickets.
# after: opening/plan.hurl opening/callers.hurl
#
# 1300000011-2 and 1300000012-3 are sold with V1's amounts, then 1300000013-4 in exchange for both, in profile 002:
# fare 45000, RA 7000, rate 00500, commission 250, CA 5000, EX 47000. It is accepted with a net of 4750. A refund of
# 1300000011 is then E09, and one of 1300000012 too. `hotcheck` of the file of 125 with these three: `OK records 25
# documents 3 net 497.50`. (`checks.txt`, `hotcheck DOUBLE`; `bsp_record_examples`, `write DOUBLE_EXCHANGE`;
# `tests/program/test_statuses.py`.)

POST {{base}}/agents/12345675/ret
Bsp-Token: agenttoken000001
file,samples/exchange-of-two.ret;
HTTP 200
{"results":[{"n":1,"period":"24011","verdict":"accepted"},{"n":2,"period":"24011","verdict":"accepted"},{"n":3,"period":"24011","verdict":"accepted"}]}

GET {{base}}/agents/12345675/periods/24011
Bsp-Token: agenttoken000001
HTTP 200
{"closed":false,"documents":3,"net":"497.50","period":"24011"}

GET {{base}}/agents/12345675/documents/1300000011
Bsp-Token: agenttoken000001
HTTP 200
{"airline":"125","cash":23500,"code":"TKTT","commission":1000,"credit":0,"issued":"2024-01-05","period":"24011","state":"exchanged"}

GET {{base}}/agents/12345675/documents/1300000012
Bsp-Token: agenttoken000001
HTTP 200
{"airline":"125","cash":23500,"code":"TKTT","commission":1000,"credit":0,"issued":"2024-01-05","period":"24011","state":"exchanged"}

GET {{base}}/agents/12345675/documents/1300000013
Bsp-Token: agenttoken000001
HTTP 200
{"airline":"125","cash":5000,"code":"TKTT","commission":250,"credit":0,"issued":"2024-01-05","period":"24011","state":"alive"}

POST {{base}}/agents/12345675/ret
Bsp-Token: agenttoken000001
file,examples/files/refund-of-11.ret;
HTTP 200
{"results":[{"n":1,"verdict":"E09"}]}

POST {{base}}/agents/12345675/ret
Bsp-Token: agenttoken000001
file,examples/files/refund-of-12.ret;
HTTP 200
{"results":[{"n":1,"verdict":"E09"}]}

POST {{base}}/agents/12345675/ret
Bsp-Token: agenttoken000001
file,samples/exchange-of-two.ret;
HTTP 200
{"results":[{"n":1,"period":"24011","verdict":"held"},{"n":2,"period":"24011","verdict":"held"},{"n":3,"period":"24011","verdict":"held"}]}

POST {{base}}/office/day
Bsp-Token: officetoken00001
{"day":"2024-01-16"}
HTTP 200
{"result":"done"}

POST {{base}}/office/close
Bsp-Token: officetoken00001
{"period":"24011"}
HTTP 200
{"result":"done"}

GET {{base}}/agents/12345675/statements/24011
Bsp-Token: agenttoken000001
HTTP 200
```
STATEMENT 12345675 PERIOD 24011 REMIT 2024-02-15 EUR
AIR    DOCS            CASH          CREDIT      COMMISSION           MEMOS             NET
125       3          520.00            0.00           22.50            0.00          497.50
TOT       3          520.00            0.00           22.50            0.00          497.50
```

GET {{base}}/office/settlement/24011
Bsp-Token: officetoken00001
HTTP 200
```
SETTLEMENT PERIOD 24011 REMIT 2024-02-15 EUR
AGENT   12345675          497.50
TOTAL   AGENTS            497.50
AIRLINE 125               497.50
TOTAL   AIRLINES          497.50
```

GET {{base}}/airlines/125/hot/24011
Bsp-Token: airlinetoken0125
HTTP 200
file,examples/files/125-exchange-of-two.hot;

# The exchange of a closed period cannot be cancelled.
POST {{base}}/agents/12345675/ret
Bsp-Token: agenttoken000001
file,examples/files/canx-of-13.ret;
HTTP 200
{"results":[{"n":1,"verdict":"E09"}]}
