# S10: the hart's mark decides on a flush, not the vCPU's.  vCPU 1 has seen
# the new version on hart 1, yet on hart 0 it must flush.
open 0 2 16                         # = 0 0
convert 0 0x80000000 16             # = 0 0
global-fence 0                      # = 0 1
local-fence 1                       # = 0 0
create 0 0x80000000 0x80004000      # = 0 0: slot 0
region 0 0 0 0x10000                # = 0 0
vcpu 0 0 0 0x80005000               # = 0 0
vcpu 0 0 1 0x80006000               # = 0 0
finalize 0 0                        # = 0 0
zero 0 0 0x80007000 0 1 0x3000      # = 0 0
enter 0 0 0                         # = 0 1: hart 0 marks version 0
leave 0                             # = 0 0
enter 1 0 1                         # = 0 1: hart 1 marks version 0
invalidate 0 0 0x3000 0x1000        # = 0 0: block
tvm-fence 0 0                       # = 0 1: hart 1 is inside; version 1
leave 1                             # = 0 1
enter 1 0 1                         # = 0 1: hart 1's mark is 0, the version 1
leave 1                             # = 0 1
enter 0 0 1                         # = 0 1: hart 0's mark is 0, the version 1
