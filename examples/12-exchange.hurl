# Example 12: an exchange takes its ticket until it is cancelled.
# after: opening/plan.hurl opening/callers.hurl
#
# A file with TKTT 1300000003-1, record 3 125-1300000001-6, fare 25000, RA 3500, rate 00500, commission 250, CA 5000,
# EX 23500. Posted once V1's sale is there it is accepted, with a net of 4750. A refund of the first ticket is then
# E09. Once a CANX of the exchange is accepted, it is accepted. (`checks.txt`, `check EXCHANGE_FILE`, and
# `bsp_record_examples`, `write EXCHANGE_FILE`: the file is read.)

POST {{base}}/agents/12345675/ret
Bsp-Token: agenttoken000001
file,samples/sale.ret;
HTTP 200
{"results":[{"n":1,"period":"24011","verdict":"accepted"}]}

POST {{base}}/agents/12345675/ret
Bsp-Token: agenttoken000001
file,samples/exchange.ret;
HTTP 200
{"results":[{"n":1,"period":"24011","verdict":"accepted"}]}

GET {{base}}/agents/12345675/periods/24011
Bsp-Token: agenttoken000001
HTTP 200
{"closed":false,"documents":2,"net":"272.50","period":"24011"}

GET {{base}}/agents/12345675/documents/1300000001
Bsp-Token: agenttoken000001
HTTP 200
{"airline":"125","cash":23500,"code":"TKTT","commission":1000,"credit":0,"issued":"2024-01-05","period":"24011","state":"exchanged"}

POST {{base}}/agents/12345675/ret
Bsp-Token: agenttoken000001
file,examples/files/refund.ret;
HTTP 200
{"results":[{"n":1,"verdict":"E09"}]}

# The exchange is cancelled, and the first ticket refunded.
POST {{base}}/agents/12345675/ret
Bsp-Token: agenttoken000001
file,examples/files/canx-of-3.ret;
HTTP 200
{"results":[{"n":1,"period":"24011","verdict":"accepted"}]}

GET {{base}}/agents/12345675/documents/1300000003
Bsp-Token: agenttoken000001
HTTP 200
{"airline":"125","cash":5000,"code":"TKTT","commission":250,"credit":0,"issued":"2024-01-05","period":"24011","state":"cancelled"}

POST {{base}}/agents/12345675/ret
Bsp-Token: agenttoken000001
file,examples/files/refund.ret;
HTTP 200
{"results":[{"n":1,"period":"24011","verdict":"accepted"}]}

GET {{base}}/agents/12345675/documents/1300000001
Bsp-Token: agenttoken000001
HTTP 200
{"airline":"125","cash":23500,"code":"TKTT","commission":1000,"credit":0,"issued":"2024-01-05","period":"24011","state":"refunded"}

GET {{base}}/agents/12345675/documents/1300000004
Bsp-Token: agenttoken000001
HTTP 200
{"airline":"125","cash":-23500,"code":"RFND","commission":-1000,"credit":0,"issued":"2024-01-05","period":"24011","state":"alive"}

GET {{base}}/agents/12345675/periods/24011
Bsp-Token: agenttoken000001
HTTP 200
{"closed":false,"documents":2,"net":"0.00","period":"24011"}
