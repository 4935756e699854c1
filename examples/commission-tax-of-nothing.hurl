# A tax of 0.00 % makes a period one of form 2; one that begins on the day after it does not.
# after: opening/plan.hurl opening/callers.hurl
#
# A tax that begins on the last day of a period at 0.00 % makes the period one of form 2.

POST {{base}}/office/plan
Bsp-Token: officetoken00001
```
currency = "EUR"
review_days = 14
documents_limit = 1000
[[commission_tax]]
from = "2024-01-31"
hundredths = 0
[[commission_tax]]
from = "2024-02-01"
hundredths = 1900
```
HTTP 200
{"result":"done"}

POST {{base}}/agents/12345675/ret
Bsp-Token: agenttoken000001
file,samples/sale.ret;
HTTP 200
{"results":[{"n":1,"period":"24011","verdict":"accepted"}]}

POST {{base}}/office/day
Bsp-Token: officetoken00001
{"day":"2024-01-16"}
HTTP 200
{"result":"done"}

POST {{base}}/office/close
Bsp-Token: officetoken00001
{"period":"24011"}
HTTP 200
{"result":"done"}

GET {{base}}/agents/12345675/statements/24011
Bsp-Token: agenttoken000001
HTTP 200
```
STATEMENT 12345675 PERIOD 24011 REMIT 2024-02-15 EUR
AIR    DOCS            CASH          CREDIT      COMMISSION           MEMOS             NET
125       1          235.00            0.00           10.00            0.00          225.00
TOT       1          235.00            0.00           10.00            0.00          225.00
```

POST {{base}}/agents/12345675/ret
Bsp-Token: agenttoken000001
file,examples/files/sale-of-10.ret;
HTTP 200
{"results":[{"n":1,"period":"24012","verdict":"accepted"}]}

POST {{base}}/office/day
Bsp-Token: officetoken00001
{"day":"2024-02-01"}
HTTP 200
{"result":"done"}

POST {{base}}/office/close
Bsp-Token: officetoken00001
{"period":"24012"}
HTTP 200
{"result":"done"}

GET {{base}}/agents/12345675/statements/24012
Bsp-Token: agenttoken000001
HTTP 200
```
STATEMENT 12345675 PERIOD 24012 REMIT 2024-02-29 EUR
AIR    DOCS            CASH          CREDIT      COMMISSION  COMMISSION TAX           MEMOS             NET
125       1          235.00            0.00           10.00            0.00            0.00          225.00
TOT       1          235.00            0.00           10.00            0.00            0.00          225.00
```

GET {{base}}/airlines/125/hot/24012
Bsp-Token: airlinetoken0125
HTTP 200
file,examples/files/125-24012-of-nothing.hot;
