# Open: its refusals are 3 and 4.  It is refused in several ways, then
# accepted, then refused as opened again.
open 1 2 32                         # = -3 4: from hart 1; its a1 lends 32 pages
open 255 2 32                       # = -3 4: from hart 255
open 0 0 32                         # = -3 4: no harts
open 0 9 32                         # = -3 4: nine harts
open 0 0xffffffffffffffff 32        # = -3 4: harts outside 1 to 8
open 0 0x100000002 32               # = -3 4: 2 only in the low 32 bits
open 0 2 31                         # = -3 4: not the lent table's length
open 0 2 33                         # = -3 4: not the lent table's length
open 0 2 0                          # = -3 4: not the lent table's length
open 0 2 0x100000020                # = -3 4: 32 only in the low 32 bits
open 0 2 32 1                       # = -3 4: a2 is unnamed
open 0 2 32 0 0 0 1                 # = -3 4: a5 is unnamed
convert 0 0x80000000 1              # = -3 3: so it is still not open
open 0 2 32                         # = 0 0
convert 0 0x80000000 1              # = 0 0: open now
open 0 2 32                         # = -3 3: opened again
open 1 2 32                         # = -3 3: 3 comes before 4
open 0 0 0 1                        # = -3 3: 3 comes before 4
convert 0 0x80000000 1              # = -5 6: the ledger was not made fresh
