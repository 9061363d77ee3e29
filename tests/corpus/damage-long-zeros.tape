# 65,537 zero bytes: long, not mark.
repeat 65537 bytes 00               # = long
