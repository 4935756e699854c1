# Memos are issued, with a documents limit of 2: the order of the refusals.
# after: opening/plan-limit-2.hurl opening/callers.hurl

POST {{base}}/airlines/125/memos
Bsp-Token: airlinetoken0125
{}
HTTP 400
{"code":"N04"}

POST {{base}}/airlines/125/memos
Bsp-Token: airlinetoken0125
{"agent":"11111111","amount":0,"document":"6000000004","kind":"ADMA","reason":"fee"}
HTTP 409
{"code":"M08"}

POST {{base}}/airlines/125/memos
Bsp-Token: airlinetoken0125
{"agent":"12345675","amount":0,"document":"6000000004","kind":"ADMA","reason":"fee"}
HTTP 409
{"code":"M04"}

POST {{base}}/airlines/125/memos
Bsp-Token: airlinetoken0125
{"agent":"12345675","amount":5000,"document":"6000000001","kind":"ADMA","reason":"fare"}
HTTP 200
{"result":"done"}

POST {{base}}/airlines/125/memos
Bsp-Token: airlinetoken0125
{"agent":"12345675","amount":5000,"document":"6000000001","kind":"ADMA","reason":"fare"}
HTTP 200
{"result":"held"}

POST {{base}}/airlines/125/memos
Bsp-Token: airlinetoken0125
{"agent":"12345675","amount":5000,"document":"6000000001","kind":"ADMA","reason":"tax"}
HTTP 409
{"code":"M05"}

POST {{base}}/airlines/125/memos
Bsp-Token: airlinetoken0125
{"agent":"12345675","amount":700,"document":"6000000002","kind":"ACMA","reason":"fee"}
HTTP 200
{"result":"done"}

POST {{base}}/airlines/125/memos
Bsp-Token: airlinetoken0125
{"agent":"12345675","amount":1,"document":"6000000003","kind":"ADMA","reason":"fee"}
HTTP 409
{"code":"M07"}

POST {{base}}/airlines/125/memos
Bsp-Token: airlinetoken0125
{"agent":"76543213","amount":1,"document":"6000000003","kind":"ADMA","reason":"fee"}
HTTP 200
{"result":"done"}
