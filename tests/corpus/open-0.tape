# The first record's a1 is 0: no records are handed on, so no open fits.
open 0 1 0                          # = -3 4: the lent table's length, but not 1 to 4,096
open 0 1 1                          # = -3 4: not the lent table's length, which stays 0
open 0 1 16                         # = -3 4
convert 0 0x80000000 1              # = -3 3: not open
