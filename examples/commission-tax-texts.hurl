# Plan texts with a tax on commission of another form.
#
# Plan texts whose tax is out of its form are P01 or P02.

# A tax without a first day, without hundredths, with a further key, and one that is no table.
POST {{base}}/office/plan
Bsp-Token: officetoken00001
```
currency = "EUR"
review_days = 14
documents_limit = 1000
commission_tax = [{hundredths = 1900}]
```
HTTP 400
{"code":"P02"}

POST {{base}}/office/plan
Bsp-Token: officetoken00001
```
currency = "EUR"
review_days = 14
documents_limit = 1000
commission_tax = [{from = "2024-01-16"}]
```
HTTP 400
{"code":"P02"}

POST {{base}}/office/plan
Bsp-Token: officetoken00001
```
currency = "EUR"
review_days = 14
documents_limit = 1000
commission_tax = [{airline = "125", from = "2024-01-16", hundredths = 1900}]
```
HTTP 400
{"code":"P02"}

POST {{base}}/office/plan
Bsp-Token: officetoken00001
```
currency = "EUR"
review_days = 14
documents_limit = 1000
commission_tax = 1900
```
HTTP 400
{"code":"P02"}

POST {{base}}/office/plan
Bsp-Token: officetoken00001
```
currency = "EUR"
review_days = 14
documents_limit = 1000
commission_tax = [1900]
```
HTTP 400
{"code":"P02"}

# Days that are none, or are not written as a text.
POST {{base}}/office/plan
Bsp-Token: officetoken00001
```
currency = "EUR"
review_days = 14
documents_limit = 1000
commission_tax = [{from = "2023-02-29", hundredths = 1900}]
```
HTTP 400
{"code":"P02"}

POST {{base}}/office/plan
Bsp-Token: officetoken00001
```
currency = "EUR"
review_days = 14
documents_limit = 1000
commission_tax = [{from = "1999-12-31", hundredths = 1900}]
```
HTTP 400
{"code":"P02"}

POST {{base}}/office/plan
Bsp-Token: officetoken00001
```
currency = "EUR"
review_days = 14
documents_limit = 1000
commission_tax = [{from = "2100-01-01", hundredths = 1900}]
```
HTTP 400
{"code":"P02"}

POST {{base}}/office/plan
Bsp-Token: officetoken00001
```
currency = "EUR"
review_days = 14
documents_limit = 1000
commission_tax = [{from = 2024-01-16, hundredths = 1900}]
```
HTTP 400
{"code":"P02"}

# Hundredths that are no whole number from 0 to 10,000.
POST {{base}}/office/plan
Bsp-Token: officetoken00001
```
currency = "EUR"
review_days = 14
documents_limit = 1000
commission_tax = [{from = "2024-01-16", hundredths = -1}]
```
HTTP 400
{"code":"P02"}

POST {{base}}/office/plan
Bsp-Token: officetoken00001
```
currency = "EUR"
review_days = 14
documents_limit = 1000
commission_tax = [{from = "2024-01-16", hundredths = 10001}]
```
HTTP 400
{"code":"P02"}

POST {{base}}/office/plan
Bsp-Token: officetoken00001
```
currency = "EUR"
review_days = 14
documents_limit = 1000
commission_tax = [{from = "2024-01-16", hundredths = 19.0}]
```
HTTP 400
{"code":"P02"}

POST {{base}}/office/plan
Bsp-Token: officetoken00001
```
currency = "EUR"
review_days = 14
documents_limit = 1000
commission_tax = [{from = "2024-01-16", hundredths = "1900"}]
```
HTTP 400
{"code":"P02"}

POST {{base}}/office/plan
Bsp-Token: officetoken00001
```
currency = "EUR"
review_days = 14
documents_limit = 1000
commission_tax = [{from = "2024-01-16", hundredths = true}]
```
HTTP 400
{"code":"P02"}

# The key in other words.
POST {{base}}/office/plan
Bsp-Token: officetoken00001
```
currency = "EUR"
review_days = 14
documents_limit = 1000
tax = []
```
HTTP 400
{"code":"P02"}

POST {{base}}/office/plan
Bsp-Token: officetoken00001
```
currency = "EUR"
review_days = 14
documents_limit = 1000
Commission_tax = []
```
HTTP 400
{"code":"P02"}

POST {{base}}/office/plan
Bsp-Token: officetoken00001
```
currency = "EUR"
review_days = 14
documents_limit = 1000
commission_taxes = []
```
HTTP 400
{"code":"P02"}

# A key that comes twice is no TOML.
POST {{base}}/office/plan
Bsp-Token: officetoken00001
```
currency = "EUR"
review_days = 14
documents_limit = 1000
commission_tax = [{from = "2024-01-16", from = "2024-01-17", hundredths = 1900}]
```
HTTP 400
{"code":"P01"}

# On the opening day a tax begins on the next day at the earliest.
POST {{base}}/office/plan
Bsp-Token: officetoken00001
```
currency = "EUR"
review_days = 14
documents_limit = 1000
[[commission_tax]]
from = "2000-01-01"
hundredths = 1900
```
HTTP 409
{"code":"P05"}

# Nothing of all this was published. A list may be empty, and its tables may come in other spellings.
POST {{base}}/office/plan
Bsp-Token: officetoken00001
```
currency = "EUR"
review_days = 14
documents_limit = 1000
commission_tax = []
```
HTTP 200
{"result":"done"}

POST {{base}}/office/plan
Bsp-Token: officetoken00001
```
currency = "EUR"
review_days = 14
documents_limit = 1000
commission_tax = [{hundredths = 0, from = '2000-01-02'}, {from = "2099-12-31", hundredths = 10_000}]
```
HTTP 200
{"result":"done"}

POST {{base}}/office/plan
Bsp-Token: officetoken00001
```
currency = "EUR"
review_days = 14
documents_limit = 1000
[[commission_tax]]
from = "2099-12-31"
hundredths = 10000
[[commission_tax]]
from = "2000-01-02"
hundredths = 0x0
```
HTTP 200
{"result":"held"}
