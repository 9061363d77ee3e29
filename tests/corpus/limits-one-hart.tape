# One hart: no fence ever awaits anybody, and hart 1 is refused.
open 0 1 16                         # = 0 0
convert 1 0x80000000 1              # = -3 4: hart 1 of one
convert 0 0x80000000 16             # = 0 0
global-fence 0                      # = 0 0
global-fence 0                      # = 0 0: nobody is awaited, so again
local-fence 0                       # = 0 0
create 0 0x80000000 0x80004000      # = 0 0: slot 0
vcpu 0 0 0 0x80005000               # = 0 0
finalize 0 0                        # = 0 0
tvm-fence 0 0                       # = 0 0: nobody inside
enter 0 0 0                         # = 0 1
tvm-fence 0 0                       # = -4 12: the only hart is inside
leave 0                             # = 0 0
