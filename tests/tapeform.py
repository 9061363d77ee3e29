"""The text form of a tape (document 01, "The tape and its printer").

One line for each record:

    NAME HART [A0 [A1 [A2 [A3 [A4 [A5]]]]]]     # comment

NAME is a call's short name (CALLS below) or its number, 0 to 255.  HART is
0 to 255.  Arguments are decimal or 0x hex, below 2^64; missing ones are 0.

Damage is written as raw hex, and stands wherever it is put:

    bytes 43 56 01

Any line may be repeated, raw bytes too:

    repeat 1259 local-fence 0

A comment starting with "=" states what the printer shows for that record,
worked out from the paper, with a reason after a colon if there is one:

    reclaim 0 0x80000000 1      # = -1 7: its fence is not done
    bytes 43                    # = short: one byte is left

For a repeated line it holds for each copy.  "= long" is the whole output.
"""

import re

MARK = b"\x43\x56"
RECORD = 52
LIMIT = 64 * 1024

# number: name, named arguments.  Those in PLACES are written in hex.
CALLS = {
    1: ("convert", "base count"),
    2: ("reclaim", "base count"),
    3: ("global-fence", ""),
    4: ("local-fence", ""),
    5: ("create", "directory state"),
    6: ("finalize", "tvm"),
    8: ("destroy", "tvm"),
    9: ("region", "tvm guest length"),
    10: ("pool", "tvm base count"),
    11: ("measured", "tvm source dest type count guest"),
    12: ("zero", "tvm base type count guest"),
    14: ("vcpu", "tvm vcpu page"),
    15: ("enter", "tvm vcpu"),
    16: ("tvm-fence", "tvm"),
    17: ("invalidate", "tvm guest length"),
    18: ("validate", "tvm guest length"),
    19: ("remove", "tvm guest length"),
    32: ("leave", ""),
    33: ("open", "harts pages"),
}
NUMBERS = {name: number for number, (name, _) in CALLS.items()}
NUMBER = re.compile("0x[0-9a-fA-F]+|[0-9]+")
ANSWER = re.compile("(0|-[0-9]+) [0-9]+")
PLACES = {"base", "directory", "state", "source", "dest", "page", "guest", "length"}


class FormError(Exception):
    """A text tape that does not read; says the file and the line."""


def number(word, limit, what):
    if not NUMBER.fullmatch(word):
        raise FormError(f"{what} is no number: {word!r}")
    value = int(word, 16 if word[:2] == "0x" else 10)
    if value >= limit:
        raise FormError(f"{what} is not below {limit}: {word}")
    return value


def pack_record(words):
    call = NUMBERS.get(words[0])
    if call is None:
        if not NUMBER.fullmatch(words[0]):
            raise FormError(f"no such call: {words[0]!r}")
        call = number(words[0], 256, "call")
    if len(words) < 2:
        raise FormError("the hart is missing")
    if len(words) > 8:
        raise FormError("more than six arguments")
    hart = number(words[1], 256, "hart")
    arguments = [number(word, 1 << 64, f"a{i}") for i, word in enumerate(words[2:])]
    arguments += [0] * (6 - len(arguments))
    return (MARK + bytes([call, hart])
            + b"".join(value.to_bytes(8, "little") for value in arguments))


def pack_raw(words):
    for word in words:
        if len(word) != 2 or not all(c in "0123456789abcdefABCDEF" for c in word):
            raise FormError(f"not two hex digits: {word!r}")
    return bytes(int(word, 16) for word in words)


def pack_line(line):
    """The bytes and the comment of one line; how often they stand there."""
    body, _, comment = line.partition("#")
    words, times = body.split(), 1
    if words and words[0] == "repeat":
        if len(words) < 3:
            raise FormError("repeat needs a count and a line")
        times, words = number(words[1], 1 << 24, "repeat count"), words[2:]
    if not words:
        return b"", 1, comment.strip()
    pack = pack_raw(words[1:]) if words[0] == "bytes" else pack_record(words)
    return pack, times, comment.strip()


def parse(text, name):
    """One (bytes, times, comment) for each line of a text tape."""
    size = 0
    for count, line in enumerate(text.split("\n"), 1):
        try:
            data, times, comment = pack_line(line)
        except FormError as error:
            raise FormError(f"{name}:{count}: record {size // RECORD + 1}: {error}") from None
        size += len(data) * times
        yield data, times, comment


def to_bytes(text, name="<text>"):
    return b"".join(data * times for data, times, _ in parse(text, name))


def is_text(data):
    """By looking: it begins as the text form does (the mark is no such letter),
    and has nothing that text has not."""
    try:
        text = data.decode()
    except UnicodeDecodeError:
        return False
    begins = re.match(r"\s*([#a-z0-9]|$)", text)
    return bool(begins) and all(c.isprintable() or c in "\t\r\n" for c in text)


def load(name):
    """The bytes of a tape in a file, which has them or their text."""
    with open(name, "rb") as file:
        data = file.read()
    return to_bytes(data.decode(), name) if is_text(data) else data


def show_value(value, what):
    if value == 0 or (what not in PLACES and value < 1 << 16):
        return str(value)
    return hex(value)


def show_record(record):
    """The text of 52 bytes that carry the mark."""
    call, hart = record[2], record[3]
    values = [int.from_bytes(record[at:at + 8], "little") for at in range(4, RECORD, 8)]
    name, named = CALLS.get(call, (str(call), ""))
    kinds = named.split() + [""] * 6
    used = max((i + 1 for i, value in enumerate(values) if value), default=0)
    used = max(used, len(named.split()))
    shown = [show_value(value, kind) for value, kind in zip(values[:used], kinds)]
    return " ".join([name, str(hart)] + shown)


def show_raw(data, why):
    """Raw bytes, sixteen to a line, the first with a remark."""
    rows = ["bytes " + data[at:at + 16].hex(" ") for at in range(0, len(data), 16)]
    rows[0] += f"    # {why}"
    return rows


def to_text(data):
    """Every 52 bytes by themselves, so that any byte string comes back."""
    lines = []
    for at in range(0, len(data), RECORD):
        part = data[at:at + RECORD]
        if len(part) < RECORD:
            lines += show_raw(part, f"short: {len(part)} bytes left")
        elif part[:2] != MARK:
            lines += show_raw(part, "wrong mark")
        else:
            lines.append(show_record(part))
    return "".join(line + "\n" for line in fold(lines))


def fold(lines):
    """Equal neighbours become one repeated line."""
    at = 0
    while at < len(lines):
        end = at
        while end < len(lines) and lines[end] == lines[at]:
            end += 1
        yield lines[at] if end == at + 1 else f"repeat {end - at} {lines[at]}"
        at = end


def stated(comment):
    """What a comment states: an error and a value, short, mark, long or ""."""
    return comment[1:].partition(":")[0].strip() if comment.startswith("=") else ""


def stated_lines(text, name="<text>"):
    """The output that the comments of a text tape state."""
    parts, lines = list(parse(text, name)), []
    if any(stated(comment) == "long" for _, _, comment in parts):
        return "long\n"
    for count, (data, times, comment) in enumerate(parts, 1):
        says, good = stated(comment), len(data) == RECORD and data[:2] == MARK
        if says in ("short", "mark"):
            return "".join(lines) + f"{len(lines) + 1} {says}\n"
        if good != bool(says) or (says and not ANSWER.fullmatch(says)):
            raise FormError(f"{name}:{count}: a record needs '= ERROR VALUE', and only a record")
        for _ in range(times if says else 0):
            lines.append(f"{len(lines) + 1} {data[2]} {says}\n")
    return "".join(lines)
