# Example 20: a stranger asks an office where A is registered.
# after: opening/plan.hurl opening/callers.hurl
#
# It is the same as in example 20, over a book in memory and over one in a file. (Also `tests/http/test_wire.py`.)

GET {{base}}/agents/12345675/stock
Bsp-Token: x
HTTP 403
{"code":"N01"}

# An agent that nobody has is answered the same.
GET {{base}}/agents/12345686/stock
Bsp-Token: x
HTTP 403
{"code":"N01"}
