# S1, second part, fresh again: two pages from the last one end past memory.
open 0 2 16                         # = 0 0
convert 0 0x8000f000 2              # = -5 5: ends past memory
