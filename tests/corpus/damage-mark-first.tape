# The first mark byte is wrong.
bytes 42 56 21 00                   # = mark
bytes 01 00 00 00 00 00 00 00 10
repeat 39 bytes 00
