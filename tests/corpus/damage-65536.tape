# Exactly 64 KiB: 1,260 records and 16 bytes, which are short.
open 0 1 16                         # = 0 0
repeat 1259 local-fence 0           # = 0 0
bytes 43 56 04 00                   # = short: record 1,261
repeat 12 bytes 00
