# Example 48: B has the same replies in four worlds that differ in all rows of A, its token, range, documents and memos.
# after: opening/plan.hurl opening/callers.hurl
# after: opening/plan.hurl opening/callers.hurl opening/ticket-and-memo-of-a.hurl
# after: opening/plan.hurl opening/callers-another-a.hurl opening/rows-of-another-a.hurl
# after: opening/plan.hurl opening/callers-without-a.hurl
#
# The worlds differ in all rows of A. It has no document, or a ticket and a memo; or another token, range, documents
# and memos; or is not registered. All replies to B are equal, as in `36-asked-by-b.hurl`.

GET {{base}}/agents/12345675/documents/1300000001
Bsp-Token: agenttoken000002
HTTP 403
{"code":"N01"}

GET {{base}}/agents/12345675/stock
Bsp-Token: agenttoken000002
HTTP 403
{"code":"N01"}

GET {{base}}/agents/12345675/memos
Bsp-Token: agenttoken000002
HTTP 403
{"code":"N01"}

POST {{base}}/agents/76543213/memos/dispute
Bsp-Token: agenttoken000002
{"airline":"125","document":"6000000001"}
HTTP 404
{"code":"M01"}

POST {{base}}/agents/76543213/memos/dispute
Bsp-Token: agenttoken000002
{"airline":"220","document":"6000000001"}
HTTP 404
{"code":"M01"}

POST {{base}}/agents/76543213/memos/dispute
Bsp-Token: agenttoken000002
{"airline":"125","document":"6000000002"}
HTTP 404
{"code":"M01"}

POST {{base}}/agents/76543213/memos/dispute
Bsp-Token: agenttoken000002
{"airline":"125","document":"6000000009"}
HTTP 404
{"code":"M01"}

POST {{base}}/agents/76543213/memos/agree
Bsp-Token: agenttoken000002
{"airline":"125","document":"6000000001"}
HTTP 404
{"code":"M01"}

POST {{base}}/agents/76543213/ret
Bsp-Token: agenttoken000002
file,examples/files/sale-by-b-of-a-number-of-a.ret;
HTTP 200
{"results":[{"n":1,"verdict":"E05"}]}

POST {{base}}/agents/76543213/ret
Bsp-Token: agenttoken000002
file,examples/files/sales-of-another-a.ret;
HTTP 200
{"results":[{"n":1,"verdict":"E02"},{"n":2,"verdict":"E02"},{"n":3,"verdict":"E02"}]}

POST {{base}}/agents/76543213/ret
Bsp-Token: agenttoken000002
file,examples/files/refund-by-b.ret;
HTTP 200
{"results":[{"n":1,"verdict":"E08"}]}

POST {{base}}/agents/76543213/ret
Bsp-Token: agenttoken000002
file,examples/files/refund-by-b-of-nobodys-ticket.ret;
HTTP 200
{"results":[{"n":1,"verdict":"E08"}]}

GET {{base}}/agents/76543213/documents/1300000001
Bsp-Token: agenttoken000002
HTTP 404
{"code":"D01"}

GET {{base}}/agents/76543213/documents/1500000001
Bsp-Token: agenttoken000002
HTTP 404
{"code":"D01"}

GET {{base}}/agents/76543213/documents/1300000009
Bsp-Token: agenttoken000002
HTTP 404
{"code":"D01"}

GET {{base}}/agents/76543213/periods/24011
Bsp-Token: agenttoken000002
HTTP 200
{"closed":false,"documents":0,"net":"0.00","period":"24011"}

GET {{base}}/agents/76543213/stock
Bsp-Token: agenttoken000002
HTTP 200
{"ranges":[{"first":"1400000000","last":"1400000099","used":0}]}

GET {{base}}/agents/76543213/memos
Bsp-Token: agenttoken000002
HTTP 200
{"memos":[]}

POST {{base}}/agents/76543213/ret
Bsp-Token: agenttoken000002
file,examples/files/sale-of-b.ret;
HTTP 200
{"results":[{"n":1,"period":"24011","verdict":"accepted"}]}

POST {{base}}/agents/76543213/ret
Bsp-Token: agenttoken000002
file,examples/files/sale-of-b.ret;
HTTP 200
{"results":[{"n":1,"period":"24011","verdict":"held"}]}

GET {{base}}/agents/76543213/documents/1400000000
Bsp-Token: agenttoken000002
HTTP 200
{"airline":"125","cash":23500,"code":"TKTT","commission":1000,"credit":0,"issued":"2024-01-05","period":"24011","state":"alive"}

POST {{base}}/airlines/125/memos
Bsp-Token: airlinetoken0125
{"agent":"76543213","amount":5000,"document":"6000000005","kind":"ADMA","reason":"fare"}
HTTP 200
{"result":"done"}

GET {{base}}/agents/76543213/memos
Bsp-Token: agenttoken000002
HTTP 200
{"memos":[{"agent":"76543213","airline":"125","amount":5000,"billed":null,"document":"6000000005","issued":"2024-01-05","kind":"ADMA","reason":"fare","state":"open"}]}

POST {{base}}/agents/76543213/memos/dispute
Bsp-Token: agenttoken000002
{"airline":"125","document":"6000000005"}
HTTP 200
{"result":"done"}

POST {{base}}/airlines/125/memos/uphold
Bsp-Token: airlinetoken0125
{"document":"6000000005"}
HTTP 200
{"result":"done"}

POST {{base}}/office/day
Bsp-Token: officetoken00001
{"day":"2024-01-16"}
HTTP 200
{"result":"done"}

GET {{base}}/agents/76543213/statements/24011
Bsp-Token: agenttoken000002
HTTP 409
{"code":"S01"}

POST {{base}}/office/close
Bsp-Token: officetoken00001
{"period":"24011"}
HTTP 200
{"result":"done"}

GET {{base}}/agents/76543213/statements/24011
Bsp-Token: agenttoken000002
HTTP 200
```
STATEMENT 76543213 PERIOD 24011 REMIT 2024-02-15 EUR
AIR    DOCS            CASH          CREDIT      COMMISSION           MEMOS             NET
125       1          235.00            0.00           10.00           50.00          275.00
TOT       1          235.00            0.00           10.00           50.00          275.00
```

GET {{base}}/agents/76543213/memos
Bsp-Token: agenttoken000002
HTTP 200
{"memos":[{"agent":"76543213","airline":"125","amount":5000,"billed":"24011","document":"6000000005","issued":"2024-01-05","kind":"ADMA","reason":"fare","state":"upheld"}]}

GET {{base}}/agents/76543213/periods/24011
Bsp-Token: agenttoken000002
HTTP 200
{"closed":true,"documents":1,"net":"275.00","period":"24011"}

GET {{base}}/agents/76543213/stock
Bsp-Token: agenttoken000002
HTTP 200
{"ranges":[{"first":"1400000000","last":"1400000099","used":1}]}
