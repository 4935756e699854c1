# Example 35: a period without documents is settled.
# after: opening/plan.hurl opening/callers.hurl
#
# The settlement has its two totals of `0.00` alone.

POST {{base}}/office/day
Bsp-Token: officetoken00001
{"day":"2024-01-16"}
HTTP 200
{"result":"done"}

POST {{base}}/office/close
Bsp-Token: officetoken00001
{"period":"24011"}
HTTP 200
{"result":"done"}

POST {{base}}/office/close
Bsp-Token: officetoken00001
{"period":"24011"}
HTTP 200
{"result":"held"}

GET {{base}}/office/settlement/24011
Bsp-Token: officetoken00001
HTTP 200
```
SETTLEMENT PERIOD 24011 REMIT 2024-02-15 EUR
TOTAL   AGENTS              0.00
TOTAL   AIRLINES            0.00
```
