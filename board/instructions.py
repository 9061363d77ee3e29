"""instructions.py TAPE ENTRY LOG ENTRY LOG: a markdown table of the instructions of each named call of a tape on RISC-V and on x86-64. A log is an
emulator's, with a line for each instruction of the library; ENTRY is the address, in hex, at which a call begins. The
ratio is of the two with what they lend."""
import pathlib
import re
import sys

sys.dont_write_bytecode = True
sys.path.append(str(pathlib.Path(__file__).resolve().parent.parent / "tests"))
import tapeform as form

# the emulator's own address, then cs_base/pc/flags/cflags, and the function
TRACE = re.compile(r"^Trace \d+: 0x[0-9a-f]+ \[[0-9a-f]+/([0-9a-f]+)/\S+\] (\S+)$")


def counts(entry, log):
    """For each call the instructions of the library, and those of the memset and memcpy that were lent to it."""
    found = []
    with open(log) as file:
        for line in file:
            trace = TRACE.match(line)
            if not trace:
                sys.exit(f"{log}: no line of an instruction: {line.strip()}")
            if int(trace.group(1), 16) == int(entry, 16):
                found.append([0, 0])
            found[-1][trace.group(2).startswith("lent_")] += 1
    return found


def names(tape):
    """What each record's comment calls it, or nothing."""
    text = pathlib.Path(tape).read_text()
    return [comment.partition(":")[2].strip() for data, _, comment in form.parse(text, tape) if data]


def main(tape, *sources):
    labels = names(tape)
    riscv, x86 = (counts(*sources[i:i + 2]) for i in (0, 2))
    if not len(labels) == len(riscv) == len(x86):
        sys.exit(f"{len(labels)} records, but {len(riscv)} and {len(x86)} calls")
    print("| call | RISC-V | memset | x86-64 | memset | ratio |\n|---|--:|--:|--:|--:|--:|")
    for label, here, there in zip(labels, riscv, x86):
        if label:
            print(f"| {label} | {here[0]:,} | {here[1]:,} | {there[0]:,} | {there[1]:,} | {sum(here) / sum(there):.2f} |")


main(*sys.argv[1:])
