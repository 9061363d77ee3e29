# S5: a page is free only when each awaited hart has fenced.
open 0 2 16                         # = 0 0
convert 0 0x80003000 1              # = 0 0: records global version 0
reclaim 0 0x80003000 1              # = -1 7: version is still 0
global-fence 0                      # = 0 1: hart 1 awaited
reclaim 0 0x80003000 1              # = -1 7: version 1 is 0 + 1, but hart 1 is awaited
local-fence 1                       # = 0 0: nobody awaited
reclaim 0 0x80003000 1              # = 0 0: done
