# Example 15: the documents limit is that of an agent and an airline.
# after: opening/plan-limit-2.hurl opening/callers.hurl
#
# With a documents limit of 2, a third document of the airline in the period is E11. Another airline's is accepted,
# and so is another agent's.

POST {{base}}/agents/12345675/ret
Bsp-Token: agenttoken000001
file,examples/files/three-sales.ret;
HTTP 200
{"results":[{"n":1,"period":"24011","verdict":"accepted"},{"n":2,"period":"24011","verdict":"accepted"},{"n":3,"verdict":"E11"}]}

POST {{base}}/agents/12345675/ret
Bsp-Token: agenttoken000001
file,samples/card-sale.ret;
HTTP 200
{"results":[{"n":1,"period":"24011","verdict":"accepted"}]}

POST {{base}}/agents/76543213/ret
Bsp-Token: agenttoken000002
file,examples/files/sale-of-b.ret;
HTTP 200
{"results":[{"n":1,"period":"24011","verdict":"accepted"}]}
