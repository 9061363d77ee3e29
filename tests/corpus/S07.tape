# S7: a fence does nothing for a page converted after it began.
open 0 2 16                         # = 0 0
global-fence 0                      # = 0 1: version 1 begins
convert 0 0x80003000 1              # = 0 0: records version 1
local-fence 1                       # = 0 0: the fence ends
reclaim 0 0x80003000 1              # = -1 7: version 1 is neither 1 + 2 nor 1 + 1
