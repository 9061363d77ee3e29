# A wrong mark on a short tail: short is tested first.
open 0 1 16                         # = 0 0
bytes 00 00 04 00                   # = short
repeat 20 bytes 00
