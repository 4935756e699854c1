# Example 20: a stranger asks an office with an empty book.
#
# `GET /agents/12345675/stock HTTP/1.1` with `Host: bsp` and `Bsp-Token: x`, on an empty book: 403 with `Content-Type:
# application/json`, `Content-Length: 14` and `{"code":"N01"}`. Then the input ends: `Clean`, and status 0. (The
# stored run of the program; `tests/program/test_devices.py`, `tests/http/test_wire.py`.)

GET {{base}}/agents/12345675/stock
Bsp-Token: x
HTTP 403
{"code":"N01"}
