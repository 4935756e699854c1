# Example 40: a stranger, a path of no request, and another method.
#
# `GET /x` asks for no route. `POST /agents/12345675/stock` asks for another method, and `Allow` lists `GET`. All
# other paths are in `other-methods.hurl`. (`tests/http/test_wire.py`: in one piece, example 20's request and these two: 403 N01,
# 404 N02, 405 N03 with `Allow: GET`, in this order, and the connection stays open.)

GET {{base}}/agents/12345675/stock
Bsp-Token: x
HTTP 403
{"code":"N01"}

GET {{base}}/x
HTTP 404
{"code":"N02"}

POST {{base}}/agents/12345675/stock
HTTP 405
Allow: GET
{"code":"N03"}
