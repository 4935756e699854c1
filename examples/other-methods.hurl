# Each path with methods that it has not: Allow lists those that it has. A HEAD has no text.

HEAD {{base}}/office/plan
HTTP 405
Allow: POST
Content-Type: application/json
``

GET {{base}}/office/plan
HTTP 405
Allow: POST
{"code":"N03"}

HEAD {{base}}/office/day
HTTP 405
Allow: POST
Content-Type: application/json
``

GET {{base}}/office/day
HTTP 405
Allow: POST
{"code":"N03"}

HEAD {{base}}/office/agents
HTTP 405
Allow: POST
Content-Type: application/json
``

GET {{base}}/office/agents
HTTP 405
Allow: POST
{"code":"N03"}

HEAD {{base}}/office/airlines
HTTP 405
Allow: POST
Content-Type: application/json
``

GET {{base}}/office/airlines
HTTP 405
Allow: POST
{"code":"N03"}

HEAD {{base}}/office/stock/allot
HTTP 405
Allow: POST
Content-Type: application/json
``

GET {{base}}/office/stock/allot
HTTP 405
Allow: POST
{"code":"N03"}

HEAD {{base}}/office/stock/withdraw
HTTP 405
Allow: POST
Content-Type: application/json
``

GET {{base}}/office/stock/withdraw
HTTP 405
Allow: POST
{"code":"N03"}

HEAD {{base}}/office/ret
HTTP 405
Allow: POST
Content-Type: application/json
``

GET {{base}}/office/ret
HTTP 405
Allow: POST
{"code":"N03"}

HEAD {{base}}/office/close
HTTP 405
Allow: POST
Content-Type: application/json
``

GET {{base}}/office/close
HTTP 405
Allow: POST
{"code":"N03"}

HEAD {{base}}/agents/12345675/ret
HTTP 405
Allow: POST
Content-Type: application/json
``

GET {{base}}/agents/12345675/ret
HTTP 405
Allow: POST
{"code":"N03"}

HEAD {{base}}/agents/12345675/memos/dispute
HTTP 405
Allow: POST
Content-Type: application/json
``

GET {{base}}/agents/12345675/memos/dispute
HTTP 405
Allow: POST
{"code":"N03"}

HEAD {{base}}/agents/1/memos/agree
HTTP 405
Allow: POST
Content-Type: application/json
``

GET {{base}}/agents/1/memos/agree
HTTP 405
Allow: POST
{"code":"N03"}

HEAD {{base}}/airlines/125/memos/uphold
HTTP 405
Allow: POST
Content-Type: application/json
``

GET {{base}}/airlines/125/memos/uphold
HTTP 405
Allow: POST
{"code":"N03"}

HEAD {{base}}/airlines/125/memos/withdraw
HTTP 405
Allow: POST
Content-Type: application/json
``

GET {{base}}/airlines/125/memos/withdraw
HTTP 405
Allow: POST
{"code":"N03"}

HEAD {{base}}/airlines/125/memos/reduce
HTTP 405
Allow: POST
Content-Type: application/json
``

GET {{base}}/airlines/125/memos/reduce
HTTP 405
Allow: POST
{"code":"N03"}

HEAD {{base}}/office/settlement/24011
HTTP 405
Allow: GET
Content-Type: application/json
``

POST {{base}}/office/settlement/24011
HTTP 405
Allow: GET
{"code":"N03"}

HEAD {{base}}/agents/12345675/documents/1300000001
HTTP 405
Allow: GET
Content-Type: application/json
``

POST {{base}}/agents/12345675/documents/1300000001
HTTP 405
Allow: GET
{"code":"N03"}

HEAD {{base}}/agents/12345675/periods/24011
HTTP 405
Allow: GET
Content-Type: application/json
``

POST {{base}}/agents/12345675/periods/24011
HTTP 405
Allow: GET
{"code":"N03"}

HEAD {{base}}/agents/12345675/stock
HTTP 405
Allow: GET
Content-Type: application/json
``

POST {{base}}/agents/12345675/stock
HTTP 405
Allow: GET
{"code":"N03"}

HEAD {{base}}/agents/memos/memos
HTTP 405
Allow: GET
Content-Type: application/json
``

POST {{base}}/agents/memos/memos
HTTP 405
Allow: GET
{"code":"N03"}

HEAD {{base}}/agents/12345675/statements/2401x
HTTP 405
Allow: GET
Content-Type: application/json
``

POST {{base}}/agents/12345675/statements/2401x
HTTP 405
Allow: GET
{"code":"N03"}

HEAD {{base}}/airlines/125/hot/24011
HTTP 405
Allow: GET
Content-Type: application/json
``

POST {{base}}/airlines/125/hot/24011
HTTP 405
Allow: GET
{"code":"N03"}

HEAD {{base}}/airlines/125/memos
HTTP 405
Allow: GET, POST
Content-Type: application/json
``

PUT {{base}}/airlines/125/memos
HTTP 405
Allow: GET, POST
{"code":"N03"}

DELETE {{base}}/airlines/125/memos
HTTP 405
Allow: GET, POST
{"code":"N03"}

OPTIONS {{base}}/airlines/125/memos
HTTP 405
Allow: GET, POST
{"code":"N03"}
