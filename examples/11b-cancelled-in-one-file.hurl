# Example 11: a sale, its CANX and the sale again in one file of the office.
# after: opening/plan.hurl opening/callers.hurl
#
# A file with V1's TKTT and its CANX, judged in turn: accepted, accepted; again held, held. A sale of the number for
# another passenger is E06. A CANX of the unreported 1300000005 is accepted, a sale of it then E06.
# (`bsp_record_examples`, `write CANCEL_FILE`: the file is read.)

POST {{base}}/office/ret
Bsp-Token: officetoken00001
file,examples/files/sale-canx-sale.ret;
HTTP 200
{"results":[{"n":1,"period":"24011","verdict":"accepted"},{"n":2,"period":"24011","verdict":"accepted"},{"n":3,"period":"24011","verdict":"held"}]}
