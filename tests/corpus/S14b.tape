# S14, second part, fresh again: a region that ends a page past 2^32.
open 0 2 16                         # = 0 0
convert 0 0x80000000 8              # = 0 0
global-fence 0                      # = 0 1
local-fence 1                       # = 0 0
create 0 0x80000000 0x80004000      # = 0 0: slot 0
region 0 0 0xfffff000 0x2000        # = -5 5: ends past 2^32
region 0 0 0xfffff000 0x1000        # = 0 0: one page less ends at 2^32
