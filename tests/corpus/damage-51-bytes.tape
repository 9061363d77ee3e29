# 51 bytes: an open that lacks its last byte.
bytes 43 56 21 00                   # = short: one byte is missing
repeat 47 bytes 00
