# The mark's bytes are swapped.
open 0 1 16                         # = 0 0
bytes 56 43 04 00                   # = mark
repeat 48 bytes 00
