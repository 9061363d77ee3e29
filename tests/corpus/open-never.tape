# The first record is a leave with a1 0, so the ledger never opens.  Before
# open every slot is empty (2), and calls without a tvm get 3; both come
# before a bad hart or argument (4).
leave 0                             # = -3 3
open 0 1 1                          # = -3 4: not the lent table's length, 0
convert 0 0x80000000 1              # = -3 3
reclaim 0 0x80000000 1              # = -3 3
global-fence 0                      # = -3 3
local-fence 0                       # = -3 3
create 0 0x80000000 0x80004000      # = -3 3
finalize 0 0                        # = -3 2
7 0                                 # = -2 1
destroy 0 0                         # = -3 2
region 0 0 0 0x1000                 # = -3 2
pool 0 0 0x80000000 1               # = -3 2
measured 0 0 0x80000000 0x80001000 0 1 0 # = -3 2
zero 0 0 0x80000000 0 1 0           # = -3 2
vcpu 0 0 0 0x80000000               # = -3 2
enter 0 0 0                         # = -3 2
tvm-fence 0 0                       # = -3 2
invalidate 0 0 0 0x1000             # = -3 2
validate 0 0 0 0x1000               # = -3 2
remove 0 0 0 0x1000                 # = -3 2
leave 255 1 2 3 4 5 6               # = -3 3
finalize 255 16 2 3 4 5 6           # = -3 2
