# The first record's a1 has 16 only in its low 32 bits: still above 4,096.
open 0 1 0x100000010                # = -3 4
open 0 1 16                         # = -3 4: not the lent table's length, 0
