# Done: "at least r + 2, or is r + 1 with no hart awaited".
open 0 2 16                         # = 0 0
convert 0 0x80000000 1              # = 0 0: page 0 records version 0
global-fence 0                      # = 0 1: version 1
convert 0 0x80001000 1              # = 0 0: page 1 records version 1
local-fence 1                       # = 0 0
convert 0 0x80002000 1              # = 0 0: page 2 records version 1, no fence running
reclaim 0 0x80001000 1              # = -1 7: version 1, r = 1
reclaim 0 0x80002000 1              # = -1 7: version 1, r = 1
global-fence 1                      # = 0 1: version 2, hart 0 awaited
reclaim 0 0x80000000 1              # = 0 0: version 2 is 0 + 2, though a hart is awaited
reclaim 0 0x80001000 1              # = -1 7: version 2 is 1 + 1, and a hart is awaited
local-fence 1                       # = 0 1: the caller is not awaited, hart 0 still is
reclaim 0 0x80001000 2              # = -1 7
local-fence 0                       # = 0 0
reclaim 0 0x80001000 2              # = 0 0: version 2 is 1 + 1, nobody awaited
