# S16: the state page may not be inside the directory.
open 0 2 16                         # = 0 0
create 0 0x80000000 0x80003000      # = -5 5: looked at before the kinds (6)
