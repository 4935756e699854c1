# Opening: the office publishes the plan PL with a tax on commission of 50.00 % from 2024-01-01 on.

POST {{base}}/office/plan
Bsp-Token: officetoken00001
```
currency = "EUR"
review_days = 14
documents_limit = 1000
airline = ["125", "220"]
[[rate]]
airline = "125"
from = "2024-01-01"
hundredths = 500
[[period]]
code = "24011"
first = "2024-01-01"
last = "2024-01-15"
remit = "2024-02-15"
[[period]]
code = "24012"
first = "2024-01-16"
last = "2024-01-31"
remit = "2024-02-29"
[[commission_tax]]
from = "2024-01-01"
hundredths = 5000
```
HTTP 200
{"result":"done"}
