# Much longer: about 1 MiB of good records.
open 0 1 16
repeat 20000 local-fence 0          # = long
