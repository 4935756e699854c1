# Example 23: a plan is published once.
#
# PL published twice: done, held. Then on 2024-01-05 PL with 15 review days is P08, a new rate from 2024-01-05 P05, a
# period from 2024-02-02 P03. `[[period` is P01, PL without currency P02.

POST {{base}}/office/plan
Bsp-Token: officetoken00001
file,samples/plan.toml;
HTTP 200
{"result":"done"}

POST {{base}}/office/plan
Bsp-Token: officetoken00001
file,samples/plan.toml;
HTTP 200
{"result":"held"}

POST {{base}}/office/day
Bsp-Token: officetoken00001
{"day":"2024-01-05"}
HTTP 200
{"result":"done"}

# 15 review days, a rate from 2024-01-05, and a period from 2024-02-02.
POST {{base}}/office/plan
Bsp-Token: officetoken00001
```
currency = "EUR"
review_days = 15
documents_limit = 1000
airline = ["125", "220"]
[[rate]]
airline = "125"
from = "2024-01-01"
hundredths = 500
[[period]]
code = "24011"
first = "2024-01-01"
last = "2024-01-15"
remit = "2024-02-15"
[[period]]
code = "24012"
first = "2024-01-16"
last = "2024-01-31"
remit = "2024-02-29"
```
HTTP 409
{"code":"P08"}

POST {{base}}/office/plan
Bsp-Token: officetoken00001
```
currency = "EUR"
review_days = 14
documents_limit = 1000
[[rate]]
airline = "125"
from = "2024-01-05"
hundredths = 600
```
HTTP 409
{"code":"P05"}

POST {{base}}/office/plan
Bsp-Token: officetoken00001
```
currency = "EUR"
review_days = 14
documents_limit = 1000
[[period]]
code = "24021"
first = "2024-02-02"
last = "2024-02-15"
remit = "2024-03-15"
```
HTTP 409
{"code":"P03"}

# No TOML text, and a plan without a currency.
POST {{base}}/office/plan
Bsp-Token: officetoken00001
`[[period`
HTTP 400
{"code":"P01"}

POST {{base}}/office/plan
Bsp-Token: officetoken00001
```
review_days = 14
documents_limit = 1000
airline = ["125", "220"]
```
HTTP 400
{"code":"P02"}

POST {{base}}/office/plan
Bsp-Token: officetoken00001
file,samples/plan.toml;
HTTP 200
{"result":"held"}
