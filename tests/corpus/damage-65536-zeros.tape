# Exactly 64 KiB of zeros: not longer, so the first record's mark is wrong.
repeat 52 bytes 00                  # = mark
repeat 65484 bytes 00
