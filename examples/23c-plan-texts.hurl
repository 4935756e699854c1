# Example 23: plan texts that are no TOML, or have a key that is missing, unknown or wrong.
#
# More reasons of P01 and P02, and their order.

# Bytes that are no UTF-8, a key that comes twice, and an integer beyond 64 bits.
POST {{base}}/office/plan
Bsp-Token: officetoken00001
hex,63757272656e6379203d2022ff220a;
HTTP 400
{"code":"P01"}

POST {{base}}/office/plan
Bsp-Token: officetoken00001
```
currency = "EUR"
review_days = 14
review_days = 14
documents_limit = 1000
```
HTTP 400
{"code":"P01"}

POST {{base}}/office/plan
Bsp-Token: officetoken00001
```
currency = "EUR"
review_days = 14
documents_limit = 9223372036854775808
```
HTTP 400
{"code":"P01"}

# No keys; then a wrong currency, and numbers that are no whole ones or out of their bounds.
POST {{base}}/office/plan
Bsp-Token: officetoken00001
HTTP 400
{"code":"P02"}

POST {{base}}/office/plan
Bsp-Token: officetoken00001
```
currency = "EUr"
review_days = 14
documents_limit = 1000
```
HTTP 400
{"code":"P02"}

POST {{base}}/office/plan
Bsp-Token: officetoken00001
```
currency = "EUR"
review_days = 0
documents_limit = 1000
```
HTTP 400
{"code":"P02"}

POST {{base}}/office/plan
Bsp-Token: officetoken00001
```
currency = "EUR"
review_days = 61
documents_limit = 1000
```
HTTP 400
{"code":"P02"}

POST {{base}}/office/plan
Bsp-Token: officetoken00001
```
currency = "EUR"
review_days = 14.0
documents_limit = 1000
```
HTTP 400
{"code":"P02"}

POST {{base}}/office/plan
Bsp-Token: officetoken00001
```
currency = "EUR"
review_days = 14
documents_limit = 0
```
HTTP 400
{"code":"P02"}

POST {{base}}/office/plan
Bsp-Token: officetoken00001
```
currency = "EUR"
review_days = 14
documents_limit = 1_000_001
```
HTTP 400
{"code":"P02"}

POST {{base}}/office/plan
Bsp-Token: officetoken00001
```
currency = "EUR"
review_days = 14
documents_limit = 9223372036854775807
```
HTTP 400
{"code":"P02"}

# A key in other letters, an airline that is a number or has two digits, a rate of an airline that nobody has.
POST {{base}}/office/plan
Bsp-Token: officetoken00001
```
currency = "EUR"
review_days = 14
documents_limit = 1000
Rate = []
```
HTTP 400
{"code":"P02"}

POST {{base}}/office/plan
Bsp-Token: officetoken00001
```
currency = "EUR"
review_days = 14
documents_limit = 1000
airline = [125]
```
HTTP 400
{"code":"P02"}

POST {{base}}/office/plan
Bsp-Token: officetoken00001
```
currency = "EUR"
review_days = 14
documents_limit = 1000
airline = ["12"]
```
HTTP 400
{"code":"P02"}

POST {{base}}/office/plan
Bsp-Token: officetoken00001
```
currency = "EUR"
review_days = 14
documents_limit = 1000
rate = [{airline = "125", from = "2024-01-01", hundredths = 500}]
```
HTTP 400
{"code":"P02"}

# Days that are none, rates out of their bounds or without a day, periods without remittance or with a short code.
POST {{base}}/office/plan
Bsp-Token: officetoken00001
```
currency = "EUR"
review_days = 14
documents_limit = 1000
airline = ["125"]
rate = [{airline = "125", from = "2023-02-29", hundredths = 500}]
```
HTTP 400
{"code":"P02"}

POST {{base}}/office/plan
Bsp-Token: officetoken00001
```
currency = "EUR"
review_days = 14
documents_limit = 1000
airline = ["125"]
rate = [{airline = "125", from = "1999-12-31", hundredths = 500}]
```
HTTP 400
{"code":"P02"}

POST {{base}}/office/plan
Bsp-Token: officetoken00001
```
currency = "EUR"
review_days = 14
documents_limit = 1000
airline = ["125"]
rate = [{airline = "125", from = "2024-01-01", hundredths = -1}]
```
HTTP 400
{"code":"P02"}

POST {{base}}/office/plan
Bsp-Token: officetoken00001
```
currency = "EUR"
review_days = 14
documents_limit = 1000
airline = ["125"]
rate = [{airline = "125", from = "2024-01-01", hundredths = 10001}]
```
HTTP 400
{"code":"P02"}

POST {{base}}/office/plan
Bsp-Token: officetoken00001
```
currency = "EUR"
review_days = 14
documents_limit = 1000
airline = ["125"]
rate = [{airline = "125", hundredths = 500}]
```
HTTP 400
{"code":"P02"}

POST {{base}}/office/plan
Bsp-Token: officetoken00001
```
currency = "EUR"
review_days = 14
documents_limit = 1000
airline = ["125"]
period = [{code = '24011', first = '2024-01-01', last = '2024-01-15'}]
```
HTTP 400
{"code":"P02"}

POST {{base}}/office/plan
Bsp-Token: officetoken00001
```
currency = "EUR"
review_days = 14
documents_limit = 1000
airline = ["125"]
period = [{code = '2401', first = '2024-01-01', last = '2024-01-15', remit = '2024-02-15'}]
```
HTTP 400
{"code":"P02"}

# Nothing of all this was published.
POST {{base}}/office/plan
Bsp-Token: officetoken00001
file,samples/plan.toml;
HTTP 200
{"result":"done"}
