# S1, third part, fresh again: one page below memory.
open 0 2 16                         # = 0 0
convert 0 0x7ffff000 1              # = -5 5: starts below memory
