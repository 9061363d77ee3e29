# One byte: fewer than 52 left.
bytes 43                            # = short
