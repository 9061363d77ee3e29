"""frames.py LIBRARY ENTRY: the deepest stack of ENTRY in a static library for x86-64, from its object code, in bytes, with the entry's own return
address; then the chain of calls that goes so deep, and what the library needs from elsewhere. Fails on what it cannot follow: an indirect call, a
recursion, or a stack pointer that moves by no constant."""
import re
import subprocess
import sys

sys.dont_write_bytecode = True
import chains



def objdump(library):
    return subprocess.run(["x86_64-linux-gnu-objdump", "-dr", "--no-show-raw-insn", library], check=True, capture_output=True, text=True).stdout


class Function:
    """One function's code, read line by line: how deep its frame goes, and whom it calls. A jump to another function counts as a call."""

    def __init__(self, name):
        self.name, self.frame, self.calls = name, 0, set()
        self.depth = 0
        self.calling = False  # the relocation of the next line names whom
        self.jumps = {}  # registers on the way to a jump through a table

    def stop(self, why, line):
        sys.exit(f"{self.name}: {why}: {line.strip()}")

    def table(self, op, args):
        """A table of jumps inside the function: an entry is loaded, the table's address is added to it, and the sum is jumped to."""
        written = args.split(",")[-1].split()[0] if args else ""
        if op == "movslq":
            self.jumps[written] = "entry"
        elif op == "add" and self.jumps.get(written) == "entry":
            self.jumps[written] = "target"
        elif op not in ("cmp", "test", "jmp"):
            self.jumps.pop(written, None)
        return op == "jmp" and self.jumps.get(args.lstrip("*")) == "target"

    def moved(self, op, args, line):
        """By how much an instruction lowers the stack pointer."""
        if op in ("push", "pop"):
            return 8 if op == "push" else -8
        if op not in ("sub", "add") or not args.endswith("%rsp"):
            return 0
        amount = re.match(r"^\$0x([0-9a-f]+),%rsp$", args) or self.stop("the stack pointer moves by no constant", line)
        value = int(amount.group(1), 16)
        value -= (value >= 1 << 63) << 64
        return value if op == "sub" else -value

    def transfer(self, op, args, line):
        """A call, or a jump that may leave the function."""
        direct = re.match(r"^[0-9a-f]+ <([^>+]+)(\+0x[0-9a-f]+)?>$", args)
        if args.startswith("*"):
            self.stop("a call that cannot be followed", line)
        elsewhere = direct and direct.group(1) != self.name
        if elsewhere and not direct.group(2):
            self.calls.add(direct.group(1))
        else:
            self.calling = bool(op.startswith("call") or elsewhere)

    def take(self, line):
        relocation = re.search(r"R_X86_64_(?:PLT32|PC32|GOTPCREL\w*)\s+([^\s+-]+)", line)
        if relocation and self.calling:
            self.calls.add(relocation.group(1).removeprefix(".text."))
        self.calling = False
        instruction = re.match(r"^\s*[0-9a-f]+:\s+(\S+)\s*(.*)$", line)
        if relocation or not instruction:
            return
        op, args = instruction.groups()
        inside = self.table(op, args)
        self.depth += self.moved(op, args, line)
        if op in ("ret", "retq"):
            # what follows a return is another way through the function, with the frame as it stood before
            self.depth = self.frame
        elif op.startswith(("call", "jmp")) and not inside:
            self.transfer(op, args, line)
        self.frame = max(self.frame, self.depth)


def main(library, entry):
    functions = []
    for line in objdump(library).splitlines():
        start = re.match(r"^[0-9a-f]+ <(.+)>:$", line)
        if start:
            functions.append(Function(start.group(1)))
        elif functions:
            functions[-1].take(line)
    chains.report(entry, {f.name: f.frame for f in functions}, {f.name: f.calls for f in functions}, 8)


main(*sys.argv[1:3])
