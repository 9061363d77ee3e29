# S1, first part: the last page of 16 converts.
open 0 2 16                         # = 0 0
convert 0 0x8000f000 1              # = 0 0: page 15 ends exactly at the end of memory
