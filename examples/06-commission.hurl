# Example 6: a commission is rounded to the nearest minor unit.
# after: opening/plan.hurl opening/callers.hurl
#
# A sale of 125 at rate 00050: fare 100 with commission 1 is accepted. Fare 99 with commission 0 is accepted, with 1
# it is E07. A refund of the first, fare -100 and commission -1, is accepted. A claimed rate of 00501 is E07.

POST {{base}}/agents/12345675/ret
Bsp-Token: agenttoken000001
file,examples/files/commission.ret;
HTTP 200
{"results":[{"n":1,"period":"24011","verdict":"accepted"},{"n":2,"period":"24011","verdict":"accepted"},{"n":3,"verdict":"E07"},{"n":4,"period":"24011","verdict":"accepted"},{"n":5,"verdict":"E07"}]}
