# A large mapping of one TVM says nothing about the same guest pages of
# another, and page i of the range goes to guest page i.
open 0 2 2048                       # = 0 0
convert 0 0x80000000 2048           # = 0 0
global-fence 0                      # = 0 1
local-fence 1                       # = 0 0
create 0 0x80000000 0x80004000      # = 0 0: slot 0
create 0 0x80008000 0x80005000      # = 0 1: slot 1
region 0 0 0 0x400000               # = 0 0
region 0 1 0 0x1000000              # = 0 0
vcpu 0 1 0 0x80006000               # = 0 0
finalize 0 0                        # = 0 0
finalize 0 1                        # = 0 0
zero 0 0 0x80200000 1 1 0           # = 0 0: guest pages 0 to 511 of slot 0
zero 0 0 0x80400000 1 2 0x200000    # = -5 10: the second unit is past the region
zero 0 1 0x80010000 0 3 0           # = 0 0: guest pages 0 to 2 of slot 1, small
invalidate 0 1 0x1000 0x1000        # = 0 0: small in slot 1
invalidate 0 0 0x1000 0x1000        # = -5 14: large in slot 0
enter 1 1 0                         # = 0 1
tvm-fence 0 1                       # = 0 1: hart 1
leave 1                             # = 0 8: slot 1 x 8 + vCPU 0
remove 0 1 0x1000 0x1000            # = 0 0: guest page 1 of slot 1 was page 17
reclaim 0 0x80010000 1              # = -5 6: page 16 is guest page 0, still mapped
reclaim 0 0x80012000 1              # = -5 6: page 18 is guest page 2, still mapped
reclaim 0 0x80011000 1              # = 0 0: page 17 it was
destroy 0 0                         # = 0 0
zero 0 1 0x80201000 0 1 0x1000      # = 0 0: a page of the old large mapping, small now
invalidate 0 1 0x1000 0x1000        # = 0 0: and blocked alone
