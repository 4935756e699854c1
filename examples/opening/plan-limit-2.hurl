# Opening: a plan of the period 24011 with a documents limit of 2.

POST {{base}}/office/plan
Bsp-Token: officetoken00001
```
currency = "EUR"
review_days = 14
documents_limit = 2
airline = ["125", "220"]
[[rate]]
airline = "125"
from = "2024-01-01"
hundredths = 500
[[period]]
code = "24011"
first = "2024-01-01"
last = "2024-01-15"
remit = "2024-02-15"
```
HTTP 200
{"result":"done"}
