# S15: call 7 is not in the table of calls.
open 0 2 16                         # = 0 0
7 0                                 # = -2 1
