# A tax on commission is published once, from a later day, and is then held or refused.
# after: opening/plan.hurl opening/callers.hurl
#
# A tax that does not begin after the business day is P05. One that is published is held, and another one of its day
# P08.

# On 2024-01-05: from this day, and from one that is over.
POST {{base}}/office/plan
Bsp-Token: officetoken00001
```
currency = "EUR"
review_days = 14
documents_limit = 1000
[[commission_tax]]
from = "2024-01-05"
hundredths = 1900
```
HTTP 409
{"code":"P05"}

POST {{base}}/office/plan
Bsp-Token: officetoken00001
```
currency = "EUR"
review_days = 14
documents_limit = 1000
[[commission_tax]]
from = "2024-01-01"
hundredths = 0
```
HTTP 409
{"code":"P05"}

# From the next day on; again; at another one; and with a further one. What is refused is refused whole.
POST {{base}}/office/plan
Bsp-Token: officetoken00001
```
currency = "EUR"
review_days = 14
documents_limit = 1000
[[commission_tax]]
from = "2024-01-06"
hundredths = 1900
```
HTTP 200
{"result":"done"}

POST {{base}}/office/plan
Bsp-Token: officetoken00001
```
currency = "EUR"
review_days = 14
documents_limit = 1000
[[commission_tax]]
from = "2024-01-06"
hundredths = 1900
```
HTTP 200
{"result":"held"}

POST {{base}}/office/plan
Bsp-Token: officetoken00001
```
currency = "EUR"
review_days = 14
documents_limit = 1000
[[commission_tax]]
from = "2024-01-06"
hundredths = 1800
```
HTTP 409
{"code":"P08"}

POST {{base}}/office/plan
Bsp-Token: officetoken00001
```
currency = "EUR"
review_days = 14
documents_limit = 1000
[[commission_tax]]
from = "2024-01-20"
hundredths = 1800
[[commission_tax]]
from = "2024-01-06"
hundredths = 1800
```
HTTP 409
{"code":"P08"}

POST {{base}}/office/plan
Bsp-Token: officetoken00001
```
currency = "EUR"
review_days = 14
documents_limit = 1000
[[commission_tax]]
from = "2024-01-20"
hundredths = 1800
[[commission_tax]]
from = "2024-01-05"
hundredths = 1800
```
HTTP 409
{"code":"P05"}

# Two of one day: the same, and different ones.
POST {{base}}/office/plan
Bsp-Token: officetoken00001
```
currency = "EUR"
review_days = 14
documents_limit = 1000
[[commission_tax]]
from = "2024-01-20"
hundredths = 1700
[[commission_tax]]
from = "2024-01-20"
hundredths = 1700
```
HTTP 200
{"result":"done"}

POST {{base}}/office/plan
Bsp-Token: officetoken00001
```
currency = "EUR"
review_days = 14
documents_limit = 1000
[[commission_tax]]
from = "2024-01-21"
hundredths = 1700
[[commission_tax]]
from = "2024-01-21"
hundredths = 1800
```
HTTP 409
{"code":"P08"}

# Of several reasons the first of the table: P02, P08, P03, P05.
POST {{base}}/office/plan
Bsp-Token: officetoken00001
```
currency = "EUR"
review_days = 14
documents_limit = 1000
[[rate]]
airline = "999"
from = "2024-01-06"
hundredths = 600
[[period]]
code = "24021"
first = "2024-02-02"
last = "2024-02-15"
remit = "2024-03-15"
[[commission_tax]]
from = "2024-01-05"
hundredths = 1900
[[commission_tax]]
from = "2024-01-06"
hundredths = 1800
```
HTTP 400
{"code":"P02"}

POST {{base}}/office/plan
Bsp-Token: officetoken00001
```
currency = "EUR"
review_days = 14
documents_limit = 1000
[[period]]
code = "24021"
first = "2024-02-02"
last = "2024-02-15"
remit = "2024-03-15"
[[commission_tax]]
from = "2024-01-05"
hundredths = 1900
[[commission_tax]]
from = "2024-01-06"
hundredths = 1800
```
HTTP 409
{"code":"P08"}

POST {{base}}/office/plan
Bsp-Token: officetoken00001
```
currency = "EUR"
review_days = 14
documents_limit = 1000
[[period]]
code = "24021"
first = "2024-02-02"
last = "2024-02-15"
remit = "2024-03-15"
[[commission_tax]]
from = "2024-01-05"
hundredths = 1900
```
HTTP 409
{"code":"P03"}

POST {{base}}/office/plan
Bsp-Token: officetoken00001
```
currency = "EUR"
review_days = 14
documents_limit = 1000
[[commission_tax]]
from = "2024-01-05"
hundredths = 1900
```
HTTP 409
{"code":"P05"}

# Once it has begun it is still held, and another one of its day P08. A text without it changes nothing.
POST {{base}}/office/day
Bsp-Token: officetoken00001
{"day":"2024-01-06"}
HTTP 200
{"result":"done"}

POST {{base}}/office/plan
Bsp-Token: officetoken00001
```
currency = "EUR"
review_days = 14
documents_limit = 1000
[[commission_tax]]
from = "2024-01-06"
hundredths = 1900
```
HTTP 200
{"result":"held"}

POST {{base}}/office/plan
Bsp-Token: officetoken00001
```
currency = "EUR"
review_days = 14
documents_limit = 1000
[[commission_tax]]
from = "2024-01-06"
hundredths = 0
```
HTTP 409
{"code":"P08"}

POST {{base}}/office/plan
Bsp-Token: officetoken00001
file,samples/plan.toml;
HTTP 200
{"result":"held"}
