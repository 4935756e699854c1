# Examples 16 and 17: the reports of a closed period, which the next close leaves as they are.
# after: opening/plan.hurl opening/callers.hurl opening/month.hurl
# after: opening/plan.hurl opening/callers.hurl opening/month.hurl 17-next-period.hurl
#
# A has V1's sale of 125 and a sale of 220, 1300000008-6, with fare 10000, no tax, no commission, CC 10000 of vendor
# VI. ADMA 7000000001 of 3000 of 220 to A, and ACMA 6000000001 of 5000 of 125 to B, are both billed in 24011, with the
# reason `RATE OF MARCH`. The statements of A and B and the settlement are those of docs/RULES.md. The HOT file of 125
# for 24011 is V2: records 19, documents 2, net 17500. The one of 220 has 17 records. They are BFH01, BCH02, BOH03,
# and the sale by card (BKT06, BKS24, BKS30, BKS39, BKP84). Then come the debit memo (BKT06, BKS24, BKS30, BKP84),
# BOT93 of TKTT and of ADMA, BOT94, BCT95, BFT99. It has documents 2, CA 3000, CC 10000, commission 0, net 3000. The
# reports are the same once 24012 is closed. (`checks.txt`: `hotcheck V2`, `hotcheck OF_220`.)

GET {{base}}/agents/12345675/statements/24011
Bsp-Token: agenttoken000001
HTTP 200
```
STATEMENT 12345675 PERIOD 24011 REMIT 2024-02-15 EUR
AIR    DOCS            CASH          CREDIT      COMMISSION           MEMOS             NET
125       1          235.00            0.00           10.00            0.00          225.00
220       1            0.00          100.00            0.00           30.00           30.00
TOT       2          235.00          100.00           10.00           30.00          255.00
```

GET {{base}}/agents/76543213/statements/24011
Bsp-Token: agenttoken000002
HTTP 200
```
STATEMENT 76543213 PERIOD 24011 REMIT 2024-02-15 EUR
AIR    DOCS            CASH          CREDIT      COMMISSION           MEMOS             NET
125       0            0.00            0.00            0.00          -50.00          -50.00
TOT       0            0.00            0.00            0.00          -50.00          -50.00
```

GET {{base}}/office/settlement/24011
Bsp-Token: officetoken00001
HTTP 200
```
SETTLEMENT PERIOD 24011 REMIT 2024-02-15 EUR
AGENT   12345675          255.00
AGENT   76543213          -50.00
TOTAL   AGENTS            205.00
AIRLINE 125               175.00
AIRLINE 220                30.00
TOTAL   AIRLINES          205.00
```

GET {{base}}/airlines/125/hot/24011
Bsp-Token: airlinetoken0125
HTTP 200
file,examples/files/125-24011.hot;

GET {{base}}/airlines/220/hot/24011
Bsp-Token: airlinetoken0220
HTTP 200
file,examples/files/220-24011.hot;
