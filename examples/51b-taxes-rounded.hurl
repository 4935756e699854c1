# Example 51: a tax is rounded for each transaction, halves away from zero.
# after: opening/plan-with-half.hurl opening/callers.hurl
#
# A commission of 1 at 5000 has the tax 1, refunded -1. Three such sales have the tax 3, and a commission of 3 has the
# tax 2.

# Commissions of 0.01, 0.01, 0.01, 0.03 and 0.00 at 50.00 %.
POST {{base}}/agents/12345675/ret
Bsp-Token: agenttoken000001
file,examples/files/pennies.ret;
HTTP 200
{"results":[{"n":1,"period":"24011","verdict":"accepted"},{"n":2,"period":"24011","verdict":"accepted"},{"n":3,"period":"24011","verdict":"accepted"},{"n":4,"period":"24011","verdict":"accepted"},{"n":5,"period":"24011","verdict":"accepted"}]}

GET {{base}}/agents/12345675/periods/24011
Bsp-Token: agenttoken000001
HTTP 200
{"closed":false,"documents":5,"net":"9.88","period":"24011"}

POST {{base}}/agents/12345675/ret
Bsp-Token: agenttoken000001
file,examples/files/penny-back.ret;
HTTP 200
{"results":[{"n":1,"period":"24011","verdict":"accepted"}]}

GET {{base}}/agents/12345675/periods/24011
Bsp-Token: agenttoken000001
HTTP 200
{"closed":false,"documents":6,"net":"8.90","period":"24011"}

POST {{base}}/office/day
Bsp-Token: officetoken00001
{"day":"2024-01-16"}
HTTP 200
{"result":"done"}

POST {{base}}/office/close
Bsp-Token: officetoken00001
{"period":"24011"}
HTTP 200
{"result":"done"}

GET {{base}}/agents/12345675/statements/24011
Bsp-Token: agenttoken000001
HTTP 200
```
STATEMENT 12345675 PERIOD 24011 REMIT 2024-02-15 EUR
AIR    DOCS            CASH          CREDIT      COMMISSION  COMMISSION TAX           MEMOS             NET
125       6            8.99            0.00            0.05            0.04            0.00            8.90
TOT       6            8.99            0.00            0.05            0.04            0.00            8.90
```

GET {{base}}/airlines/125/hot/24011
Bsp-Token: airlinetoken0125
HTTP 200
file,examples/files/125-24011-pennies.hot;
