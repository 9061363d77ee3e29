# S14, first part: a region of the whole guest space, 2^32 bytes.
open 0 2 16                         # = 0 0
convert 0 0x80000000 8              # = 0 0
global-fence 0                      # = 0 1
local-fence 1                       # = 0 0
create 0 0x80000000 0x80004000      # = 0 0: slot 0
region 0 0 0 0x100000000            # = 0 0: ends at 2^32, and the 4,096-page limit is not for regions
