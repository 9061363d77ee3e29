# S3: the same address with a good count.
open 0 2 16                         # = 0 0
convert 0 0x80000800 1              # = -5 5: not on 4 KiB
