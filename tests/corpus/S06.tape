# S6: a global fence while one runs.
open 0 2 16                         # = 0 0
global-fence 0                      # = 0 1: hart 1 awaited
global-fence 0                      # = -7 8: hart 1 still awaited
