# The first record's a1 is 4,096: the largest table.
open 0 9 4096                       # = -3 4: nine harts
open 0 1 4096                       # = 0 0
convert 0 0x80fff000 1              # = 0 0: the last page
