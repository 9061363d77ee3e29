# S11: a new TVM in a destroyed one's slot: the first entry on any hart is 1.
# Destroy adds 1 to the slot's version, so old marks do not fit.
open 0 2 16                         # = 0 0
convert 0 0x80000000 16             # = 0 0
global-fence 0                      # = 0 1
local-fence 1                       # = 0 0
create 0 0x80000000 0x80004000      # = 0 0: slot 0
vcpu 0 0 0 0x80005000               # = 0 0
finalize 0 0                        # = 0 0
enter 0 0 0                         # = 0 1: hart 0 marks version 0
leave 0                             # = 0 0
enter 1 0 0                         # = 0 1: hart 1 marks version 0
leave 1                             # = 0 0
destroy 0 0                         # = 0 0: version 1
create 0 0x80000000 0x80004000      # = 0 0: kind 2 again, and slot 0 again
vcpu 0 0 0 0x80005000               # = 0 0: the old vCPU 0 is gone
finalize 0 0                        # = 0 0
enter 0 0 0                         # = 0 1: mark 0, version 1
leave 0                             # = 0 0
enter 1 0 0                         # = 0 1: mark 0, version 1
leave 1                             # = 0 0
enter 1 0 0                         # = 0 0: both 1 now
