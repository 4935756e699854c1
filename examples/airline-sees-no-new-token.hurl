# An airline has the same replies, its HOT file among them, whether agents were given new tokens or not.
# after: opening/plan.hurl opening/callers.hurl opening/month.hurl
# after: opening/plan.hurl opening/callers.hurl opening/month.hurl opening/new-tokens-of-agents.hurl

GET {{base}}/airlines/125/hot/24011
Bsp-Token: airlinetoken0125
HTTP 200
file,examples/files/125-24011.hot;

GET {{base}}/airlines/125/memos
Bsp-Token: airlinetoken0125
HTTP 200
{"memos":[{"agent":"76543213","airline":"125","amount":5000,"billed":"24011","document":"6000000001","issued":"2024-01-05","kind":"ACMA","reason":"RATE OF MARCH","state":"open"}]}

# The agents are known as before.
POST {{base}}/airlines/125/memos
Bsp-Token: airlinetoken0125
{"agent":"12345675","amount":4000,"document":"6000000002","kind":"ADMA","reason":"fare"}
HTTP 200
{"result":"done"}

POST {{base}}/airlines/125/memos
Bsp-Token: airlinetoken0125
{"agent":"76543213","amount":5000,"document":"6000000001","kind":"ACMA","reason":"RATE OF MARCH"}
HTTP 200
{"result":"held"}

POST {{base}}/airlines/125/memos
Bsp-Token: airlinetoken0125
{"agent":"12345686","amount":4000,"document":"6000000003","kind":"ADMA","reason":"fare"}
HTTP 409
{"code":"M08"}

GET {{base}}/airlines/125/hot/24011
Bsp-Token: airlinetoken0125
HTTP 200
file,examples/files/125-24011.hot;
