# Two records, the second one byte short.
open 0 1 16                         # = 0 0
bytes 43 56 01 00                   # = short
repeat 47 bytes 00
