# The first record's a1 is above 4,096: 0 records are handed on.
open 0 1 4097                       # = -3 4
open 0 1 4096                       # = -3 4: not the lent table's length, 0
open 0 1 0                          # = -3 4: the length, but not 1 to 4,096
convert 0 0x80000000 1              # = -3 3: not open
