# One byte more than 64 KiB: long, and nothing else is printed.
open 0 1 16
repeat 1259 local-fence 0
bytes 43 56 04 00
repeat 13 bytes 00                  # = long: 65,520 + 17 bytes
