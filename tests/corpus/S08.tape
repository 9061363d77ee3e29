# S8: the first entry flushes, the same entry again does not.
open 0 2 16                         # = 0 0
convert 0 0x80000000 8              # = 0 0
global-fence 0                      # = 0 1
local-fence 1                       # = 0 0: pages 0 to 7 count as free
create 0 0x80000000 0x80004000      # = 0 0: slot 0
vcpu 0 0 0 0x80005000               # = 0 0
finalize 0 0                        # = 0 0: runnable
enter 0 0 0                         # = 0 1: hart 0 never flushed slot 0
leave 0                             # = 0 0: slot 0 x 8 + vCPU 0
enter 0 0 0                         # = 0 0: hart 0 flushed at slot version 0, which stands
