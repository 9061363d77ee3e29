# S13: leave from a hart that is outside.
open 0 2 16                         # = 0 0
leave 0                             # = -3 15
leave 1                             # = -3 15
