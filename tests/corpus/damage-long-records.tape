# Whole records, but 1,261 of them: 65,572 bytes.
open 0 1 16
repeat 1260 local-fence 0           # = long
