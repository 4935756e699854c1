# Example 38: a reduced memo is known by its first amount.
# after: opening/plan.hurl opening/callers.hurl opening/memos.hurl 14-memos.hurl
#
# Once the memo is reduced to 3000, an issue of 5000 is the same, one of 3000 another. So is one of another kind,
# reason or agent.

POST {{base}}/airlines/125/memos
Bsp-Token: airlinetoken0125
{"agent":"12345675","amount":5000,"document":"6000000001","kind":"ADMA","reason":"fare"}
HTTP 200
{"result":"held"}

POST {{base}}/airlines/125/memos
Bsp-Token: airlinetoken0125
{"agent":"12345675","amount":3000,"document":"6000000001","kind":"ADMA","reason":"fare"}
HTTP 409
{"code":"M05"}

# So is one of another kind, reason or agent.
POST {{base}}/airlines/125/memos
Bsp-Token: airlinetoken0125
{"agent":"12345675","amount":5000,"document":"6000000001","kind":"ACMA","reason":"fare"}
HTTP 409
{"code":"M05"}

POST {{base}}/airlines/125/memos
Bsp-Token: airlinetoken0125
{"agent":"12345675","amount":5000,"document":"6000000001","kind":"ADMA","reason":"fare "}
HTTP 409
{"code":"M05"}

POST {{base}}/airlines/125/memos
Bsp-Token: airlinetoken0125
{"agent":"76543213","amount":5000,"document":"6000000001","kind":"ADMA","reason":"fare"}
HTTP 409
{"code":"M05"}
