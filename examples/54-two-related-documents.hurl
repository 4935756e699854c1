# Example 54: where a second related document is allowed, and which.
# after: opening/plan.hurl opening/callers.hurl
#
# The exchange of example 53 as the only group of a file. In profile 001 it is F03 record 4. In 002 with its records 3
# exchanged it is F05 record 4. With `003` it is F02 record 1. With the second related document 1300000099-6, which
# nobody has, it is E08. (Also `checks.txt`, `check HEADER DOUBLE_SALE` and the lines that follow it.)

POST {{base}}/agents/12345675/ret
Bsp-Token: agenttoken000001
file,examples/files/sales-of-11-and-12.ret;
HTTP 200
{"results":[{"n":1,"period":"24011","verdict":"accepted"},{"n":2,"period":"24011","verdict":"accepted"}]}

POST {{base}}/agents/12345675/ret
Bsp-Token: agenttoken000001
file,examples/files/two-related-in-001.ret;
HTTP 422
{"code":"F03","record":4}

POST {{base}}/agents/12345675/ret
Bsp-Token: agenttoken000001
file,examples/files/two-related-falling.ret;
HTTP 422
{"code":"F05","record":4}

POST {{base}}/agents/12345675/ret
Bsp-Token: agenttoken000001
file,examples/files/two-related-in-003.ret;
HTTP 422
{"code":"F02","record":1}

# The same document twice, and a second one of an airline that comes before the first one's.
POST {{base}}/agents/12345675/ret
Bsp-Token: agenttoken000001
file,examples/files/two-related-the-same.ret;
HTTP 422
{"code":"F05","record":4}

POST {{base}}/agents/12345675/ret
Bsp-Token: agenttoken000001
file,examples/files/two-related-by-airline.ret;
HTTP 422
{"code":"F05","record":4}

# A third one, two in a refund, and two in a sale without EX: this is known at the trailer.
POST {{base}}/agents/12345675/ret
Bsp-Token: agenttoken000001
file,examples/files/three-related.ret;
HTTP 422
{"code":"F03","record":5}

POST {{base}}/agents/12345675/ret
Bsp-Token: agenttoken000001
file,examples/files/two-related-in-a-refund.ret;
HTTP 422
{"code":"F03","record":4}

POST {{base}}/agents/12345675/ret
Bsp-Token: agenttoken000001
file,examples/files/two-related-without-ex.ret;
HTTP 422
{"code":"F03","record":7}

# The second one is a number that nobody has.
POST {{base}}/agents/12345675/ret
Bsp-Token: agenttoken000001
file,examples/files/two-related-of-nobody.ret;
HTTP 200
{"results":[{"n":1,"verdict":"E08"}]}

GET {{base}}/agents/12345675/documents/1300000013
Bsp-Token: agenttoken000001
HTTP 404
{"code":"D01"}

# None of this was kept.
POST {{base}}/agents/12345675/ret
Bsp-Token: agenttoken000001
file,examples/files/two-related.ret;
HTTP 200
{"results":[{"n":1,"period":"24011","verdict":"accepted"}]}

GET {{base}}/agents/12345675/periods/24011
Bsp-Token: agenttoken000001
HTTP 200
{"closed":false,"documents":3,"net":"497.50","period":"24011"}

POST {{base}}/agents/12345675/ret
Bsp-Token: agenttoken000001
file,examples/files/two-related-in-001.ret;
HTTP 422
{"code":"F03","record":4}

POST {{base}}/agents/12345675/ret
Bsp-Token: agenttoken000001
file,examples/files/two-related.ret;
HTTP 200
{"results":[{"n":1,"period":"24011","verdict":"held"}]}
