# Example 8: a refund before its sale is accepted once it is reported again.
# after: opening/plan.hurl opening/callers.hurl
#
# A file with RFND 1300000002-0 of 125-1300000001-6 (fare -20000, RA -3500, rate 00500, commission -1000, CA -23500),
# then V1's TKTT. Judged in turn the refund is E08 and the sale accepted. Posted again: accepted, held. The net of
# both is 0. The HOT file of 125 has those values. (`bsp_record_examples`, `write REFUND_FILE`: the file is read.
# `tests/program/test_statuses.py`: `check` prints both and the sum 0.00.)

POST {{base}}/agents/12345675/ret
Bsp-Token: agenttoken000001
file,samples/refund-and-sale.ret;
HTTP 200
{"results":[{"n":1,"verdict":"E08"},{"n":2,"period":"24011","verdict":"accepted"}]}

POST {{base}}/agents/12345675/ret
Bsp-Token: agenttoken000001
file,samples/refund-and-sale.ret;
HTTP 200
{"results":[{"n":1,"period":"24011","verdict":"accepted"},{"n":2,"period":"24011","verdict":"held"}]}

GET {{base}}/agents/12345675/periods/24011
Bsp-Token: agenttoken000001
HTTP 200
{"closed":false,"documents":2,"net":"0.00","period":"24011"}

POST {{base}}/office/day
Bsp-Token: officetoken00001
{"day":"2024-01-16"}
HTTP 200
{"result":"done"}

POST {{base}}/office/close
Bsp-Token: officetoken00001
{"period":"24011"}
HTTP 200
{"result":"done"}

GET {{base}}/airlines/125/hot/24011
Bsp-Token: airlinetoken0125
HTTP 200
file,examples/files/125-refund-and-sale.hot;
