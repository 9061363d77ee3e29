# 52 bytes and one more: the first record is done, the second is short.
open 0 1 16                         # = 0 0
bytes 43                            # = short
