# The lowest number whose condition holds: one call of zero with everything
# wrong at once, then the lowest fault mended each time.
open 0 2 64                         # = 0 0
convert 0 0x80000000 48             # = 0 0: pages 0 to 47 record version 0
global-fence 0                      # = 0 1
local-fence 1                       # = 0 0
convert 0 0x80030000 1              # = 0 0: page 48 records version 1; page 49 is kind 0
create 0 0x80000000 0x80004000      # = 0 0: slot 0
create 0 0x80008000 0x80005000      # = 0 1: slot 1, initializing
region 0 0 0 0x4000                 # = 0 0: guest pages 0 to 3
vcpu 0 0 0 0x80006000               # = 0 0
finalize 0 0                        # = 0 0
zero 0 0 0x80010000 0 1 0x3000      # = 0 0: guest page 3 is mapped
enter 1 0 0                         # = 0 1: hart 1 is inside from here on
zero 1 2 0x8002f800 2 3 0x2800 9    # = -3 2: slot 2 is empty
zero 1 1 0x8002f800 2 3 0x2800 9    # = -3 3: slot 1 is initializing
zero 1 0 0x8002f800 2 3 0x2800 9    # = -3 4: type 2
zero 1 0 0x8002f800 0 3 0x2800 9    # = -3 4: a5
zero 1 0 0x8002f800 0 3 0x2800      # = -5 5: base
zero 1 0 0x8002f000 0 3 0x2800      # = -5 5: guest
zero 1 0 0x8002f000 0 3 0x2000      # = -5 6: page 49 is kind 0 (page 48 not done, guest page 4 in no region)
zero 1 0 0x8002e000 0 3 0x2000      # = -1 7: page 48 is not done
zero 1 0 0x8002d000 0 3 0x2000      # = -5 10: guest page 4 is in no region (3 is mapped)
zero 1 0 0x8002d000 0 3 0x1000      # = -5 11: guest page 3 is mapped
zero 1 0 0x8002d000 0 3 0           # = -4 12: hart 1 is inside
zero 0 0 0x8002d000 0 3 0           # = 0 0: nothing left
