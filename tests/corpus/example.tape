# The paper's own example ("The tape and its printer"), all on hart 0.
# The answers are the paper's printed lines.
open 0 1 16                         # = 0 0
convert 0 0x80000000 8              # = 0 0: pages 0 to 7 become kind 1, version 0
create 0 0x80000000 0x80004000      # = -1 7: kind 1 and not done
global-fence 0                      # = 0 0: one hart, so none is awaited
create 0 0x80000000 0x80004000      # = 0 0: version 1 is 0 + 1 with no hart awaited; slot 0
create 0 0x80000000 0x80004000      # = -5 6: kinds 3 and 4 now
reclaim 0 0x80005000 3              # = 0 0: pages 5 to 7 count as free
convert 0 0x80005000 0              # = -3 4: count 0
