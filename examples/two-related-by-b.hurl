# An exchange with another agent's ticket is as one with a ticket that nobody has; so are B's reports of form 2.
# after: opening/plan-with-half.hurl opening/callers.hurl
# after: opening/plan-with-half.hurl opening/callers.hurl opening/ticket-and-memo-of-a.hurl
#
# An exchange with a ticket of another agent is E08, as one with a ticket that nobody has. B's reports of form 2 are
# the same in both worlds.

# A sale, and exchanges of it and of a ticket that A has, or nobody.
POST {{base}}/agents/76543213/ret
Bsp-Token: agenttoken000002
file,examples/files/two-related-by-b.ret;
HTTP 200
{"results":[{"n":1,"period":"24011","verdict":"accepted"},{"n":2,"verdict":"E08"},{"n":3,"verdict":"E08"}]}

GET {{base}}/agents/76543213/documents/1400000000
Bsp-Token: agenttoken000002
HTTP 200
{"airline":"125","cash":23500,"code":"TKTT","commission":1000,"credit":0,"issued":"2024-01-05","period":"24011","state":"alive"}

GET {{base}}/agents/76543213/documents/1400000001
Bsp-Token: agenttoken000002
HTTP 404
{"code":"D01"}

GET {{base}}/agents/76543213/periods/24011
Bsp-Token: agenttoken000002
HTTP 200
{"closed":false,"documents":1,"net":"220.00","period":"24011"}

POST {{base}}/office/day
Bsp-Token: officetoken00001
{"day":"2024-01-16"}
HTTP 200
{"result":"done"}

POST {{base}}/office/close
Bsp-Token: officetoken00001
{"period":"24011"}
HTTP 200
{"result":"done"}

GET {{base}}/agents/76543213/statements/24011
Bsp-Token: agenttoken000002
HTTP 200
```
STATEMENT 76543213 PERIOD 24011 REMIT 2024-02-15 EUR
AIR    DOCS            CASH          CREDIT      COMMISSION  COMMISSION TAX           MEMOS             NET
125       1          235.00            0.00           10.00            5.00            0.00          220.00
TOT       1          235.00            0.00           10.00            5.00            0.00          220.00
```

GET {{base}}/airlines/220/hot/24011
Bsp-Token: airlinetoken0220
HTTP 200
file,examples/files/220-24011-form-2.hot;
