# Example 37: an airline acts on its own memos.
# after: opening/plan.hurl opening/callers.hurl opening/memos.hurl
#
# With the issues of example 14, 220 upholds 6000000001, and 6000000009, which nobody has: 404 M01 both times. The
# same issue again is the same, and held. With amount 1 it is another, M05. To 12345686, which is not registered, it
# is M08.

POST {{base}}/airlines/220/memos/uphold
Bsp-Token: airlinetoken0220
{"document":"6000000001"}
HTTP 404
{"code":"M01"}

POST {{base}}/airlines/220/memos/uphold
Bsp-Token: airlinetoken0220
{"document":"6000000009"}
HTTP 404
{"code":"M01"}

POST {{base}}/airlines/125/memos
Bsp-Token: airlinetoken0125
{"agent":"12345675","amount":5000,"document":"6000000001","kind":"ADMA","reason":"fare"}
HTTP 200
{"result":"held"}

POST {{base}}/airlines/125/memos
Bsp-Token: airlinetoken0125
{"agent":"12345675","amount":1,"document":"6000000001","kind":"ADMA","reason":"fare"}
HTTP 409
{"code":"M05"}

POST {{base}}/airlines/125/memos
Bsp-Token: airlinetoken0125
{"agent":"12345686","amount":5000,"document":"6000000001","kind":"ADMA","reason":"fare"}
HTTP 409
{"code":"M08"}
