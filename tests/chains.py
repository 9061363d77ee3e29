"""The deepest stack of a call, from the frames of functions and who calls whom. For frames.py here and the board's."""
import sys


def deepest(function, frames, calls, pushed, above=()):
    """How deep a call of the function goes, and the chain of calls that goes so deep. What the library has no code of counts as what its call pushes."""
    if function in above:
        sys.exit(f"a recursion: {' '.join(above)} {function}")
    best = pushed + frames.get(function, 0), [function]
    for callee in sorted(calls.get(function, ())):
        depth, chain = deepest(callee, frames, calls, pushed, (*above, function))
        if pushed + frames[function] + depth > best[0]:
            best = pushed + frames[function] + depth, [function] + chain
    return best


def report(entry, frames, calls, pushed):
    """The deepest stack of entry in bytes, its chain, and what the library needs from elsewhere. Pushed are the bytes that a call itself takes."""
    if entry not in frames:
        sys.exit(f"no function {entry}")
    depth, chain = deepest(entry, frames, calls, pushed)
    needed = sorted({callee for callees in calls.values() for callee in callees} - set(frames))
    print(depth)
    print(" > ".join(chain))
    print("needs " + (" ".join(needed) or "nothing"))
