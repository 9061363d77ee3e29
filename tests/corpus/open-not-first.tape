# The first record is no open; its a1 lends the table all the same, even where
# the call itself is not in the table of calls.
99 3 5 16                           # = -2 1
open 0 1 17                         # = -3 4: not the lent table's length
open 0 1 16                         # = 0 0
convert 0 0x8000f000 1              # = 0 0: page 15
