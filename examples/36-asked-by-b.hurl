# Examples 36 and 48: B has the same replies where A holds the ticket and a memo, and where nobody does.
# after: opening/plan.hurl opening/callers.hurl opening/ticket-and-memo-of-a.hurl
# after: opening/plan.hurl opening/callers.hurl
#
# Examples 9 and 10, example 13's disputes, and all else that B asks, in a run of its own. In one world A holds the
# ticket 1300000001 and a memo, in the other nobody does. All replies to B are the same.

POST {{base}}/agents/76543213/memos/dispute
Bsp-Token: agenttoken000002
{"airline":"125","document":"6000000001"}
HTTP 404
{"code":"M01"}

POST {{base}}/agents/76543213/memos/dispute
Bsp-Token: agenttoken000002
{"airline":"125","document":"6000000009"}
HTTP 404
{"code":"M01"}

POST {{base}}/agents/76543213/ret
Bsp-Token: agenttoken000002
file,examples/files/sale-by-b-of-a-number-of-a.ret;
HTTP 200
{"results":[{"n":1,"verdict":"E05"}]}

POST {{base}}/agents/76543213/ret
Bsp-Token: agenttoken000002
file,examples/files/refund-by-b.ret;
HTTP 200
{"results":[{"n":1,"verdict":"E08"}]}

POST {{base}}/agents/76543213/ret
Bsp-Token: agenttoken000002
file,examples/files/refund-by-b-of-nobodys-ticket.ret;
HTTP 200
{"results":[{"n":1,"verdict":"E08"}]}

GET {{base}}/agents/76543213/documents/1300000001
Bsp-Token: agenttoken000002
HTTP 404
{"code":"D01"}

GET {{base}}/agents/76543213/periods/24011
Bsp-Token: agenttoken000002
HTTP 200
{"closed":false,"documents":0,"net":"0.00","period":"24011"}

GET {{base}}/agents/76543213/stock
Bsp-Token: agenttoken000002
HTTP 200
{"ranges":[{"first":"1400000000","last":"1400000099","used":0}]}

GET {{base}}/agents/76543213/memos
Bsp-Token: agenttoken000002
HTTP 200
{"memos":[]}

GET {{base}}/agents/12345675/documents/1300000001
Bsp-Token: agenttoken000002
HTTP 403
{"code":"N01"}

POST {{base}}/agents/76543213/ret
Bsp-Token: agenttoken000002
file,examples/files/sale-of-b.ret;
HTTP 200
{"results":[{"n":1,"period":"24011","verdict":"accepted"}]}

GET {{base}}/agents/76543213/periods/24011
Bsp-Token: agenttoken000002
HTTP 200
{"closed":false,"documents":1,"net":"225.00","period":"24011"}
