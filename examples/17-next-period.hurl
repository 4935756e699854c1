# Example 17: the next period is closed, and has a HOT file of four records.
# after: opening/plan.hurl opening/callers.hurl opening/month.hurl
#
# On 2024-02-01, 24012 is closed. The HOT file of 220 for it is V3, records 4, documents 0, net 0. (`checks.txt`,
# `hotcheck V3`, and `tests/program/test_statuses.py`: V3 without its last record, or with net `00000000000000A` in record 4, is H04
# record 4.)

POST {{base}}/office/day
Bsp-Token: officetoken00001
{"day":"2024-02-01"}
HTTP 200
{"result":"done"}

POST {{base}}/office/close
Bsp-Token: officetoken00001
{"period":"24012"}
HTTP 200
{"result":"done"}

GET {{base}}/airlines/220/hot/24012
Bsp-Token: airlinetoken0220
HTTP 200
file,samples/no-documents.hot;
