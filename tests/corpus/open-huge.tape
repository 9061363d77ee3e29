# The first record's a1 is 2^64 - 1: above 4,096, so 0 records are handed on.
open 0 1 0xffffffffffffffff         # = -3 4
open 0 1 4096                       # = -3 4: not the lent table's length, 0
open 0 1 0                          # = -3 4
leave 0                             # = -3 3: not open
