# 1,260 whole records, 65,520 bytes: the most that fit in 64 KiB.
open 0 1 16                         # = 0 0
repeat 1259 local-fence 0           # = 0 0
