# The second mark byte is wrong.
bytes 43 57 21 00                   # = mark
bytes 01 00 00 00 00 00 00 00 10
repeat 39 bytes 00
