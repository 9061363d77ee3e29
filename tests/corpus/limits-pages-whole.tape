# All 4,096 pages in one call, there and back.
open 0 1 4096                       # = 0 0
convert 0 0x80000000 4096           # = 0 0: 4,096 is not above 4,096
global-fence 0                      # = 0 0: one hart, nobody awaited
reclaim 0 0x80000000 4096           # = 0 0
convert 0 0x80000000 4096           # = 0 0: all kind 0 again
