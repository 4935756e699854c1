# Example 13: a memo is disputed within its review of 14 days.
# after: opening/plan.hurl opening/callers.hurl
#
# An ADMA issued on 2024-01-05, review 14 days: a dispute on 2024-01-19 is done, again held. The dispute of another on
# 2024-01-20 is M02. B's dispute of the first, or of 6000000009, which nobody has, is 404 M01.

POST {{base}}/airlines/125/memos
Bsp-Token: airlinetoken0125
{"agent":"12345675","amount":5000,"document":"6000000001","kind":"ADMA","reason":"fare"}
HTTP 200
{"result":"done"}

POST {{base}}/airlines/125/memos
Bsp-Token: airlinetoken0125
{"agent":"12345675","amount":5000,"document":"6000000002","kind":"ADMA","reason":"fare"}
HTTP 200
{"result":"done"}

POST {{base}}/office/day
Bsp-Token: officetoken00001
{"day":"2024-01-19"}
HTTP 200
{"result":"done"}

POST {{base}}/agents/12345675/memos/dispute
Bsp-Token: agenttoken000001
{"airline":"125","document":"6000000001"}
HTTP 200
{"result":"done"}

POST {{base}}/agents/12345675/memos/dispute
Bsp-Token: agenttoken000001
{"airline":"125","document":"6000000001"}
HTTP 200
{"result":"held"}

POST {{base}}/office/day
Bsp-Token: officetoken00001
{"day":"2024-01-20"}
HTTP 200
{"result":"done"}

POST {{base}}/agents/12345675/memos/dispute
Bsp-Token: agenttoken000001
{"airline":"125","document":"6000000002"}
HTTP 409
{"code":"M02"}

POST {{base}}/agents/76543213/memos/dispute
Bsp-Token: agenttoken000002
{"airline":"125","document":"6000000001"}
HTTP 404
{"code":"M01"}

POST {{base}}/agents/76543213/memos/dispute
Bsp-Token: agenttoken000002
{"airline":"125","document":"6000000009"}
HTTP 404
{"code":"M01"}
