# Example 26: six tickets in one file.
# after: opening/plan.hurl opening/callers.hurl
#
# Six tickets in one file (`samples/six-tickets.ret`), 20 records with the sum 1409.00. They are V1's; the same; the
# same number with another passenger; 1300000100-0 with V1's amounts; 1300000002-0 with CA 23400 for 23500; V1's with
# check digit 7. Posted by A: accepted, held, E06, E05, E07, E03. (Also `tests/store/test_store.py`.)

POST {{base}}/agents/12345675/ret
Bsp-Token: agenttoken000001
file,samples/six-tickets.ret;
HTTP 200
{"results":[{"n":1,"period":"24011","verdict":"accepted"},{"n":2,"period":"24011","verdict":"held"},{"n":3,"verdict":"E06"},{"n":4,"verdict":"E05"},{"n":5,"verdict":"E07"},{"n":6,"verdict":"E03"}]}
