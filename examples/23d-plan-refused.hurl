# Example 23: a plan text is refused for the first of the reasons that apply to it.
# after: opening/plan.hurl opening/callers.hurl
#
# More reasons of P08, P03 and P05, and their order.

# 15 review days, a rate from 2024-01-05 and a period from 2024-02-02; then the last two of these.
POST {{base}}/office/plan
Bsp-Token: officetoken00001
```
currency = "EUR"
review_days = 15
documents_limit = 1000
[[rate]]
airline = "125"
from = "2024-01-05"
hundredths = 600
[[period]]
code = "24021"
first = "2024-02-02"
last = "2024-02-15"
remit = "2024-03-15"
```
HTTP 409
{"code":"P08"}

POST {{base}}/office/plan
Bsp-Token: officetoken00001
```
currency = "EUR"
review_days = 14
documents_limit = 1000
[[rate]]
airline = "125"
from = "2024-01-05"
hundredths = 600
[[period]]
code = "24021"
first = "2024-02-02"
last = "2024-02-15"
remit = "2024-03-15"
```
HTTP 409
{"code":"P03"}

# Also a rate of an airline that nobody has.
POST {{base}}/office/plan
Bsp-Token: officetoken00001
```
currency = "EUR"
review_days = 15
documents_limit = 1000
[[rate]]
airline = "999"
from = "2024-01-05"
hundredths = 600
[[period]]
code = "24021"
first = "2024-02-02"
last = "2024-02-15"
remit = "2024-03-15"
```
HTTP 400
{"code":"P02"}

# Another rate under the key of a published one, and two rates with one key.
POST {{base}}/office/plan
Bsp-Token: officetoken00001
```
currency = "EUR"
review_days = 14
documents_limit = 1000
[[rate]]
airline = "125"
from = "2024-01-01"
hundredths = 501
```
HTTP 409
{"code":"P08"}

POST {{base}}/office/plan
Bsp-Token: officetoken00001
```
currency = "EUR"
review_days = 14
documents_limit = 1000
[[rate]]
airline = "220"
from = "2024-01-06"
hundredths = 500
[[rate]]
airline = "220"
from = "2024-01-06"
hundredths = 501
```
HTTP 409
{"code":"P08"}

# Periods that end before they begin, or are remitted on their last day.
POST {{base}}/office/plan
Bsp-Token: officetoken00001
```
currency = "EUR"
review_days = 14
documents_limit = 1000
[[period]]
code = "24021"
first = "2024-02-01"
last = "2024-01-31"
remit = "2024-03-15"
```
HTTP 409
{"code":"P03"}

POST {{base}}/office/plan
Bsp-Token: officetoken00001
```
currency = "EUR"
review_days = 14
documents_limit = 1000
[[period]]
code = "24021"
first = "2024-02-01"
last = "2024-02-15"
remit = "2024-02-15"
```
HTTP 409
{"code":"P03"}

# Two equal entries are one, and what is new is added.
POST {{base}}/office/plan
Bsp-Token: officetoken00001
```
currency = "EUR"
review_days = 14
documents_limit = 1000
airline = ["125", "125"]
```
HTTP 200
{"result":"held"}

POST {{base}}/office/plan
Bsp-Token: officetoken00001
```
currency = "EUR"
review_days = 14
documents_limit = 1000
[[rate]]
airline = "220"
from = "2024-01-06"
hundredths = 500
[[rate]]
airline = "220"
from = "2024-01-06"
hundredths = 500
[[period]]
code = "24021"
first = "2024-02-01"
last = "2024-02-15"
remit = "2024-03-15"
```
HTTP 200
{"result":"done"}

POST {{base}}/office/plan
Bsp-Token: officetoken00001
```
currency = "EUR"
review_days = 14
documents_limit = 1000
[[rate]]
airline = "220"
from = "2024-01-06"
hundredths = 500
```
HTTP 200
{"result":"held"}

POST {{base}}/office/plan
Bsp-Token: officetoken00001
file,samples/plan.toml;
HTTP 200
{"result":"held"}
