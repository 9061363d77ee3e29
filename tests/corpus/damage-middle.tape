# Good records, then a bad one: it ends the run, and what follows is not read.
open 0 1 16                         # = 0 0
convert 0 0x80000000 1              # = 0 0
convert 0 0x80000000 1              # = -5 6: kind 1; a refusal does not end the run
bytes 43 55 04 00                   # = mark: record 4
repeat 48 bytes 00
convert 0 0x80001000 1
convert 0 0x80002000 1
