# Example 10: B refunds a ticket that nobody has, and one of A's.
# after: opening/plan.hurl opening/callers.hurl
#
# B reports a refund, 1400000000, of A's ticket, which is none of B's, or of 1300000007, which nobody has: E08.

POST {{base}}/agents/76543213/ret
Bsp-Token: agenttoken000002
file,examples/files/refund-by-b-of-nobodys-ticket.ret;
HTTP 200
{"results":[{"n":1,"verdict":"E08"}]}

POST {{base}}/agents/12345675/ret
Bsp-Token: agenttoken000001
file,samples/sale.ret;
HTTP 200
{"results":[{"n":1,"period":"24011","verdict":"accepted"}]}

POST {{base}}/agents/76543213/ret
Bsp-Token: agenttoken000002
file,examples/files/refund-by-b.ret;
HTTP 200
{"results":[{"n":1,"verdict":"E08"}]}
