# The largest numbers of a plan, and its last days.

POST {{base}}/office/plan
Bsp-Token: officetoken00001
```
currency = "EUR"
review_days = 0x3C
documents_limit = 1_000_000
airline = ["125"]
rate = [{hundredths = 10000, from = "2099-12-31", airline = "125"}]
[[period]]
code = "99999"
first = "2000-01-01"
last = "2099-12-30"
remit = "2099-12-31"
```
HTTP 200
{"result":"done"}

POST {{base}}/office/plan
Bsp-Token: officetoken00001
```
currency = "EUR"
review_days = 60
documents_limit = 1000000
[[rate]]
airline = "125"
from = "2099-12-31"
hundredths = 10000
[[period]]
code = "99999"
first = "2000-01-01"
last = "2099-12-30"
remit = "2099-12-31"
```
HTTP 200
{"result":"held"}

POST {{base}}/office/plan
Bsp-Token: officetoken00001
```
currency = "EUR"
review_days = 59
documents_limit = 1000000
```
HTTP 409
{"code":"P08"}

POST {{base}}/office/plan
Bsp-Token: officetoken00001
```
currency = "EUR"
review_days = 60
documents_limit = 999999
```
HTTP 409
{"code":"P08"}

POST {{base}}/office/plan
Bsp-Token: officetoken00001
```
currency = "EUR"
review_days = 60
documents_limit = 1000000
[[rate]]
airline = "125"
from = "2099-12-31"
hundredths = 9999
```
HTTP 409
{"code":"P08"}

POST {{base}}/office/day
Bsp-Token: officetoken00001
{"day":"2099-12-31"}
HTTP 200
{"result":"done"}

POST {{base}}/office/close
Bsp-Token: officetoken00001
{"period":"99999"}
HTTP 200
{"result":"done"}
