# The tax is that of the latest first day not after the day of issue, and 0 before the first.
# after: opening/plan.hurl opening/callers.hurl
#
# Taxes of several days: each ticket has that of its day of issue, and each refund that of the earlier day.

# 19.00 % from 2024-01-06 on, none from 2024-01-10 on, and 100.00 % from 2024-01-12 on.
POST {{base}}/office/plan
Bsp-Token: officetoken00001
```
currency = "EUR"
review_days = 14
documents_limit = 1000
[[commission_tax]]
from = "2024-01-12"
hundredths = 10000
[[commission_tax]]
from = "2024-01-06"
hundredths = 1900
[[commission_tax]]
from = "2024-01-10"
hundredths = 0
```
HTTP 200
{"result":"done"}

POST {{base}}/office/day
Bsp-Token: officetoken00001
{"day":"2024-01-12"}
HTTP 200
{"result":"done"}

# Sales of 2024-01-05, -06, -09, -10, -11 and -12; refunds of those of 05, 09, 12 and 11, issued on 12, 12, 09 and 12.
POST {{base}}/agents/12345675/ret
Bsp-Token: agenttoken000001
file,examples/files/taxes-by-days.ret;
HTTP 200
{"results":[{"n":1,"period":"24011","verdict":"accepted"},{"n":2,"period":"24011","verdict":"accepted"},{"n":3,"period":"24011","verdict":"accepted"},{"n":4,"period":"24011","verdict":"accepted"},{"n":5,"period":"24011","verdict":"accepted"},{"n":6,"period":"24011","verdict":"accepted"},{"n":7,"period":"24011","verdict":"accepted"},{"n":8,"period":"24011","verdict":"accepted"},{"n":9,"period":"24011","verdict":"accepted"},{"n":10,"period":"24011","verdict":"accepted"}]}

GET {{base}}/agents/12345675/periods/24011
Bsp-Token: agenttoken000001
HTTP 200
{"closed":false,"documents":10,"net":"440.00","period":"24011"}

POST {{base}}/office/day
Bsp-Token: officetoken00001
{"day":"2024-01-16"}
HTTP 200
{"result":"done"}

POST {{base}}/office/close
Bsp-Token: officetoken00001
{"period":"24011"}
HTTP 200
{"result":"done"}

GET {{base}}/agents/12345675/statements/24011
Bsp-Token: agenttoken000001
HTTP 200
```
STATEMENT 12345675 PERIOD 24011 REMIT 2024-02-15 EUR
AIR    DOCS            CASH          CREDIT      COMMISSION  COMMISSION TAX           MEMOS             NET
125      10          470.00            0.00           20.00           10.00            0.00          440.00
TOT      10          470.00            0.00           20.00           10.00            0.00          440.00
```

GET {{base}}/airlines/125/hot/24011
Bsp-Token: airlinetoken0125
HTTP 200
file,examples/files/125-24011-by-days.hot;
