# The first record's a1 is 1: a table of one page.
open 0 8 1                          # = 0 0
convert 0 0x80000000 2              # = -5 5: ends past memory
convert 0 0x80001000 1              # = -5 5: past memory
convert 7 0x80000000 1              # = 0 0: the only page
create 0 0x80000000 0x80000000      # = -5 5: a directory does not fit
