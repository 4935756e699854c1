# Example 27: B reports a sale of A's.
# after: opening/plan.hurl opening/callers.hurl
#
# V1 posted by B: E02, and B's net of 24011 stays `0.00`. (Also `tests/store/test_store.py`.)

POST {{base}}/agents/76543213/ret
Bsp-Token: agenttoken000002
file,samples/sale.ret;
HTTP 200
{"results":[{"n":1,"verdict":"E02"}]}

GET {{base}}/agents/76543213/periods/24011
Bsp-Token: agenttoken000002
HTTP 200
{"closed":false,"documents":0,"net":"0.00","period":"24011"}
