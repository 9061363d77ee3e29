# S4: convert one page twice.
open 0 2 16                         # = 0 0
convert 0 0x80003000 1              # = 0 0
convert 0 0x80003000 1              # = -5 6: kind 1, and convert wants kind 0
