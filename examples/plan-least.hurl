# The least numbers of a plan.

POST {{base}}/office/plan
Bsp-Token: officetoken00001
```
documents_limit = 1
review_days = 1
currency = 'EUR'
airline = [
"000",
]
```
HTTP 200
{"result":"done"}

POST {{base}}/office/plan
Bsp-Token: officetoken00001
```
currency = "EUR"
review_days = 1
documents_limit = 1
airline = ["000"]
```
HTTP 200
{"result":"held"}

POST {{base}}/office/plan
Bsp-Token: officetoken00001
```
currency = "EUR"
review_days = 2
documents_limit = 1
```
HTTP 409
{"code":"P08"}

POST {{base}}/office/plan
Bsp-Token: officetoken00001
```
currency = "EUR"
review_days = 1
documents_limit = 2
```
HTTP 409
{"code":"P08"}

# On the opening day, 2000-01-01, a rate may begin on the next day.
POST {{base}}/office/plan
Bsp-Token: officetoken00001
```
currency = "EUR"
review_days = 1
documents_limit = 1
[[rate]]
airline = "000"
from = "2000-01-01"
hundredths = 0
```
HTTP 409
{"code":"P05"}

POST {{base}}/office/plan
Bsp-Token: officetoken00001
```
currency = "EUR"
review_days = 1
documents_limit = 1
[[rate]]
airline = "000"
from = "2000-01-02"
hundredths = 0
```
HTTP 200
{"result":"done"}

POST {{base}}/office/plan
Bsp-Token: officetoken00001
```
currency = "EUR"
review_days = 1
documents_limit = 1
[[rate]]
airline = "000"
from = "2000-01-02"
hundredths = 1
```
HTTP 409
{"code":"P08"}
