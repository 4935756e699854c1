# Example 29: the rate is that of the latest first day, and 0 before.
# after: opening/plan.hurl opening/callers.hurl
#
# The rate of 125 on 2023-12-31 is 0, on 2024-01-01 500; of 220 it is 0. With a further rate of 600 from 2024-01-10 it
# is 500 on 2024-01-09, and 600 on 2024-01-10. A sale that claims the rate is accepted, one that claims 1 more is E07.

# A rate of 6.00 % from 2024-01-10 on.
POST {{base}}/office/plan
Bsp-Token: officetoken00001
```
currency = "EUR"
review_days = 14
documents_limit = 1000
[[rate]]
airline = "125"
from = "2024-01-10"
hundredths = 600
```
HTTP 200
{"result":"done"}

POST {{base}}/office/day
Bsp-Token: officetoken00001
{"day":"2024-01-10"}
HTTP 200
{"result":"done"}

# For each day a rate that is too high, then the rate itself: 2023-12-31, 2024-01-01, -09 and -10; then 220.
POST {{base}}/agents/12345675/ret
Bsp-Token: agenttoken000001
file,examples/files/rates.ret;
HTTP 200
{"results":[{"n":1,"verdict":"E07"},{"n":2,"period":"24011","verdict":"accepted"},{"n":3,"verdict":"E07"},{"n":4,"period":"24011","verdict":"accepted"},{"n":5,"verdict":"E07"},{"n":6,"period":"24011","verdict":"accepted"},{"n":7,"verdict":"E07"},{"n":8,"period":"24011","verdict":"accepted"},{"n":9,"verdict":"E07"},{"n":10,"period":"24011","verdict":"accepted"}]}
