# S2: the count is looked at before the address (4 before 5).
open 0 2 16                         # = 0 0
convert 0 0x80000800 4097           # = -3 4: range above 4,096 pages
