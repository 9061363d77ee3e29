# One byte is missing inside a record, so it borrows the next one's first byte
# (0x43, which is a5's highest byte then) and the rest is out of step.
open 0 1 16                         # = 0 0
bytes 43 56 04 00 00 00 00 00 00 00 00 00 00 00 00 00 00 00 00 00 00 00 00 00 00 00 00 00 00 00 00 00 00 00 00 00 00 00 00 00 00 00 00 00 00 00 00 00 00 00 00 43 # = -3 4: a5 is unnamed
bytes 56 04 00                      # = short: 51 bytes are left, and their mark is not looked at
repeat 48 bytes 00
