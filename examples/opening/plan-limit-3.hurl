# Opening: a plan without rates and periods, with a documents limit of 3.

POST {{base}}/office/plan
Bsp-Token: officetoken00001
```
currency = "EUR"
review_days = 14
documents_limit = 3
airline = ["125", "220"]
```
HTTP 200
{"result":"done"}
