"""frames.py LIBRARY ENTRY: the deepest stack of ENTRY in a static library for RISC-V, from its object code, in bytes; then the chain of calls that goes
so deep, and what the library needs from elsewhere. A call pushes nothing: the return address is in a register, and in the frame of a function that calls.
Fails on what it cannot follow: an indirect call, a recursion, or a stack pointer that moves by no constant."""
import pathlib
import re
import subprocess
import sys

sys.dont_write_bytecode = True
sys.path.append(str(pathlib.Path(__file__).resolve().parent.parent / "tests"))
import chains

CALL = ("R_RISCV_CALL", "R_RISCV_CALL_PLT")
# The first operand of these is what they read, and a store writes memory.
READERS = re.compile(r"^(c\.)?(s[bhwd](sp)?|b[a-z]+|j|jr|ret|ecall|ebreak|unimp|nop|fence.*)$")


def objdump(*words):
    return subprocess.run(["riscv64-linux-gnu-objdump", *words], check=True, capture_output=True, text=True).stdout


def moved(name, op, operands):
    """By how much an instruction lowers the stack pointer."""
    if READERS.match(op) or operands[0] != "sp":
        return 0
    if op not in ("add", "addi") or len(operands) != 3 or operands[1] != "sp" or not re.fullmatch(r"-?\d+", operands[2]):
        sys.exit(f"{name}: the stack pointer moves by no constant: {op} {','.join(operands)}")
    return -int(operands[2])


def functions(library):
    """For each function what it lowers the stack pointer by in all, which is no less than its frame, and whom it calls. A tail call counts as a call."""
    frames, calls, name, linked = {}, {}, None, False
    for line in objdump("-dr", "--no-show-raw-insn", library).splitlines():
        start = re.match(r"^[0-9a-f]+ <((?!\.L).+)>:$", line)  # .L begins the name of a place inside a function
        relocation = re.match(r"^\s+[0-9a-f]+: (R_RISCV_\w+)\s+(\S*)", line)
        instruction = re.match(r"^\s*[0-9a-f]+:\t(\S+)\s*([^ #<]*)", line)
        if start:
            name, linked = start.group(1), False
            frames[name], calls[name] = 0, set()
        elif relocation and relocation.group(1) in CALL:
            calls[name].add(relocation.group(2))
            linked = True
        elif instruction:
            op, operands = instruction.group(1), instruction.group(2).split(",")
            # an address that a relocation gives is made by one instruction and jumped to by the next
            if op in ("jalr", "jal") and not linked:
                sys.exit(f"{name}: a call that cannot be followed: {line.strip()}")
            linked = False
            frames[name] += max(0, moved(name, op, operands))
    return frames, calls


def main(library, entry):
    frames, calls = functions(library)
    known = set(frames).union(*calls.values())
    # A jump to an address in a register is one through a table of the function's own places as long as nobody has the address of a function.
    for kind, symbol in re.findall(r"^[0-9a-f]+ (R_RISCV_\w+)\s+(\S+)", objdump("-r", library), re.M):
        if symbol.split("+")[0] in known and kind not in CALL:
            sys.exit(f"the address of {symbol} is taken")
    chains.report(entry, frames, calls, 0)


main(*sys.argv[1:3])
