# A second related ticket is judged as the first one is, and the values of both are added up.
# after: opening/plan.hurl opening/callers.hurl
#
# E03, E08, E09 and E12 come by the second ticket alone, and the values of two different tickets are added up.

# Tickets, a cancelled one and a refunded one; then E08 before E09 by one of two; E03; amounts that are not of both.
POST {{base}}/agents/12345675/ret
Bsp-Token: agenttoken000001
file,examples/files/second-ticket.ret;
HTTP 200
{"results":[{"n":1,"period":"24011","verdict":"accepted"},{"n":2,"period":"24011","verdict":"accepted"},{"n":3,"period":"24011","verdict":"accepted"},{"n":4,"period":"24011","verdict":"accepted"},{"n":5,"period":"24011","verdict":"accepted"},{"n":6,"period":"24011","verdict":"accepted"},{"n":7,"period":"24011","verdict":"accepted"},{"n":8,"verdict":"E08"},{"n":9,"verdict":"E08"},{"n":10,"verdict":"E08"},{"n":11,"verdict":"E08"},{"n":12,"verdict":"E08"},{"n":13,"verdict":"E09"},{"n":14,"verdict":"E09"},{"n":15,"verdict":"E03"},{"n":16,"verdict":"E12"},{"n":17,"verdict":"E12"},{"n":18,"verdict":"E12"},{"n":19,"verdict":"E12"},{"n":20,"period":"24011","verdict":"accepted"},{"n":21,"period":"24011","verdict":"held"},{"n":22,"verdict":"E09"},{"n":23,"verdict":"E09"},{"n":24,"verdict":"E09"},{"n":25,"verdict":"E09"},{"n":26,"verdict":"E06"},{"n":27,"period":"24011","verdict":"accepted"},{"n":28,"period":"24011","verdict":"accepted"},{"n":29,"period":"24011","verdict":"accepted"},{"n":30,"period":"24011","verdict":"accepted"},{"n":31,"period":"24011","verdict":"accepted"},{"n":32,"period":"24011","verdict":"accepted"}]}

GET {{base}}/agents/12345675/periods/24011
Bsp-Token: agenttoken000001
HTTP 200
{"closed":false,"documents":12,"net":"1569.50","period":"24011"}

GET {{base}}/agents/12345675/documents/1300000012
Bsp-Token: agenttoken000001
HTTP 200
{"airline":"125","cash":23500,"code":"TKTT","commission":1000,"credit":0,"issued":"2024-01-05","period":"24011","state":"exchanged"}

GET {{base}}/agents/12345675/documents/1300000023
Bsp-Token: agenttoken000001
HTTP 200
{"airline":"125","cash":23500,"code":"TKTT","commission":1000,"credit":0,"issued":"2024-01-05","period":"24011","state":"exchanged"}

GET {{base}}/agents/12345675/documents/1300000026
Bsp-Token: agenttoken000001
HTTP 200
{"airline":"125","cash":23500,"code":"TKTT","commission":1000,"credit":0,"issued":"2024-01-05","period":"24011","state":"exchanged"}

GET {{base}}/agents/12345675/documents/1300000027
Bsp-Token: agenttoken000001
HTTP 200
{"airline":"125","cash":0,"code":"TKTT","commission":0,"credit":0,"issued":"2024-01-05","period":"24011","state":"alive"}

POST {{base}}/office/day
Bsp-Token: officetoken00001
{"day":"2024-01-16"}
HTTP 200
{"result":"done"}

POST {{base}}/office/close
Bsp-Token: officetoken00001
{"period":"24011"}
HTTP 200
{"result":"done"}

GET {{base}}/agents/12345675/statements/24011
Bsp-Token: agenttoken000001
HTTP 200
```
STATEMENT 12345675 PERIOD 24011 REMIT 2024-02-15 EUR
AIR    DOCS            CASH          CREDIT      COMMISSION           MEMOS             NET
125      11         1395.00            0.00           60.50            0.00         1334.50
220       1          235.00            0.00            0.00            0.00          235.00
TOT      12         1630.00            0.00           60.50            0.00         1569.50
```

GET {{base}}/airlines/125/hot/24011
Bsp-Token: airlinetoken0125
HTTP 200
file,examples/files/125-second-ticket.hot;
