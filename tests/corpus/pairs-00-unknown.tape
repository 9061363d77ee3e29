# Refusal 1: call numbers that are not in the table of calls.  It comes before
# every other number, and no call of the table ever gets it.
7 200 1 32                          # = -2 1: not open, wrong hart, unnamed arguments: still 1
open 0 1 32                         # = 0 0: the first record's a1 was 32
0 0                                 # = -2 1
7 0                                 # = -2 1
13 0                                # = -2 1
20 0                                # = -2 1
31 0                                # = -2 1
34 0                                # = -2 1
128 0                               # = -2 1
255 255 0xffffffffffffffff          # = -2 1
