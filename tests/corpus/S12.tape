# S12 (1,024 pages): a large page at 0x80200000 is taken page by page, and
# blocked only whole.
open 0 2 1024                       # = 0 0
convert 0 0x80000000 1024           # = 0 0
global-fence 0                      # = 0 1
local-fence 1                       # = 0 0
create 0 0x80000000 0x80004000      # = 0 0: slot 0
region 0 0 0 0x400000               # = 0 0
finalize 0 0                        # = 0 0
create 0 0x80008000 0x80005000      # = 0 1: slot 1
region 0 1 0 0x400000               # = 0 0
finalize 0 1                        # = 0 0
zero 0 0 0x80200000 1 1 0x200000    # = 0 0: pages 512 to 1,023 to guest pages 512 to 1,023
zero 0 1 0x80201000 0 1 0           # = -5 6: page 513 is kind 7 already
invalidate 0 0 0x201000 0x1000      # = -5 14: the large mapping sticks out of the range
invalidate 0 0 0x200000 0x200000    # = 0 0: the whole of it
