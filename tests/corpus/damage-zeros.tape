# 52 zero bytes have no mark.
repeat 52 bytes 00                  # = mark
