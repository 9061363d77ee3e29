# A bad mark in the middle of whole records, and a short tail that is never
# reached.
open 0 1 16                         # = 0 0
repeat 20 local-fence 0             # = 0 0
bytes ff ff 04 00                   # = mark: record 22
repeat 48 bytes 00
repeat 20 local-fence 0
bytes 43 56
