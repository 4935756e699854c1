# Examples 2 and 31: the first row of the table of verdicts that applies has the code.
# after: opening/plan.hurl opening/callers.hurl
#
# A sale of 1300000001 with check digit 7 is E03. V1's sale of airline 999 with check digit 7 is E01; issued on
# 2024-01-06 with check digit 7 it is E03. With the number 1300000100-0 and issued on 2024-01-06 it is E04; with that
# number and CA 1 it is E05.

# Check digits, airlines, days, numbers, amounts; then the sale; then what is there under a number.
POST {{base}}/agents/12345675/ret
Bsp-Token: agenttoken000001
file,examples/files/order-of-rows.ret;
HTTP 200
{"results":[{"n":1,"verdict":"E03"},{"n":2,"verdict":"E01"},{"n":3,"verdict":"E03"},{"n":4,"verdict":"E04"},{"n":5,"verdict":"E05"},{"n":6,"verdict":"E01"},{"n":7,"verdict":"E02"},{"n":8,"verdict":"E04"},{"n":9,"verdict":"E07"},{"n":10,"period":"24011","verdict":"accepted"},{"n":11,"verdict":"E06"},{"n":12,"verdict":"E05"},{"n":13,"verdict":"E02"},{"n":14,"verdict":"E03"},{"n":15,"verdict":"E07"},{"n":16,"verdict":"E07"},{"n":17,"verdict":"E08"},{"n":18,"verdict":"E08"}]}

# In a file of the office the transaction of B is judged over B's rows.
POST {{base}}/office/ret
Bsp-Token: officetoken00001
file,examples/files/order-of-rows.ret;
HTTP 200
{"results":[{"n":1,"verdict":"E03"},{"n":2,"verdict":"E01"},{"n":3,"verdict":"E03"},{"n":4,"verdict":"E04"},{"n":5,"verdict":"E05"},{"n":6,"verdict":"E01"},{"n":7,"verdict":"E05"},{"n":8,"verdict":"E04"},{"n":9,"verdict":"E06"},{"n":10,"period":"24011","verdict":"held"},{"n":11,"verdict":"E06"},{"n":12,"verdict":"E05"},{"n":13,"verdict":"E02"},{"n":14,"verdict":"E03"},{"n":15,"verdict":"E07"},{"n":16,"verdict":"E07"},{"n":17,"verdict":"E08"},{"n":18,"verdict":"E08"}]}

POST {{base}}/agents/12345675/ret
Bsp-Token: agenttoken000001
file,examples/files/no-sales.ret;
HTTP 200
{"results":[]}
