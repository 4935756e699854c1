# Example 9: B sells a number of A's, before A has used it and after.
# after: opening/plan.hurl opening/callers.hurl
#
# B (76543213) reports A's number 1300000001, before A has used it and after: E05.

POST {{base}}/agents/76543213/ret
Bsp-Token: agenttoken000002
file,examples/files/sale-by-b-of-a-number-of-a.ret;
HTTP 200
{"results":[{"n":1,"verdict":"E05"}]}

POST {{base}}/agents/12345675/ret
Bsp-Token: agenttoken000001
file,samples/sale.ret;
HTTP 200
{"results":[{"n":1,"period":"24011","verdict":"accepted"}]}

POST {{base}}/agents/76543213/ret
Bsp-Token: agenttoken000002
file,examples/files/sale-by-b-of-a-number-of-a.ret;
HTTP 200
{"results":[{"n":1,"verdict":"E05"}]}
