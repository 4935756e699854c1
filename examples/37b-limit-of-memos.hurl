# Example 37: an airline issues as many memos to an agent as the documents limit.
# after: opening/plan-limit-3.hurl opening/callers.hurl opening/memos.hurl
#
# With a documents limit of 3 the fourth memo of 125 to A is M07, and one to B is done.

POST {{base}}/airlines/125/memos
Bsp-Token: airlinetoken0125
{"agent":"12345675","amount":5000,"document":"6000000004","kind":"ADMA","reason":"fare"}
HTTP 409
{"code":"M07"}

POST {{base}}/airlines/125/memos
Bsp-Token: airlinetoken0125
{"agent":"76543213","amount":5000,"document":"6000000005","kind":"ADMA","reason":"fare"}
HTTP 200
{"result":"done"}
