# The same line for a TVM: pages blocked before, during and after a fence.
open 0 2 32                         # = 0 0
convert 0 0x80000000 32             # = 0 0
global-fence 0                      # = 0 1
local-fence 1                       # = 0 0
create 0 0x80000000 0x80004000      # = 0 0: slot 0
region 0 0 0 0x10000                # = 0 0
vcpu 0 0 0 0x80005000               # = 0 0
finalize 0 0                        # = 0 0
zero 0 0 0x80010000 0 4 0           # = 0 0: guest pages 0 to 3
enter 1 0 0                         # = 0 1
invalidate 0 0 0 0x1000             # = 0 0: guest page 0 records version 0
tvm-fence 0 0                       # = 0 1: version 1
invalidate 0 0 0x1000 0x1000        # = 0 0: guest page 1 records version 1
leave 1                             # = 0 0: the fence ends
invalidate 0 0 0x2000 0x1000        # = 0 0: guest page 2 records version 1
remove 0 0 0x1000 0x1000            # = -1 7: version 1, r = 1: blocked after the fence began
validate 0 0 0x2000 0x1000          # = -1 7: version 1, r = 1
remove 0 0 0 0x3000                 # = -1 7: guest page 0 is done, the others are not
enter 1 0 0                         # = 0 1: mark 0, version 1
tvm-fence 0 0                       # = 0 1: version 2, hart 1 awaited
remove 0 0 0 0x1000                 # = 0 0: version 2 is 0 + 2, though a hart is awaited
remove 0 0 0x1000 0x1000            # = -1 7: version 2 is 1 + 1, and hart 1 is awaited
leave 1                             # = 0 0
remove 0 0 0x1000 0x1000            # = 0 0
validate 0 0 0x2000 0x1000          # = 0 0
reclaim 0 0x80010000 2              # = 0 0: removed pages are kind 2, free at once
reclaim 0 0x80012000 1              # = -5 6: guest page 2 is present again
