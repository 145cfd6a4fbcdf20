#!/usr/bin/env python3
"""An outside model of the program `inspect`, written from docs/FORMATS.md and docs/REFUSALS.md alone.

    tools/inspect_model.py input  > crates/inspect/stdin      the lines that the gate runs the program on
    tools/inspect_model.py output < crates/inspect/stdin > crates/inspect/stdout    what it must print
    tools/inspect_model.py compare PROGRAM [ROUNDS]           random lines, the program beside the model
"""
import random
import subprocess
import sys

CAUSE = {
    1: "the text is empty, ends inside a field or has bytes left over",
    2: "the map is not allowed, or the parts would need such a map",
    3: "the predecessors are not 1 to 8 digests, strictly ascending",
    4: "the value does not have 1 to 64 bytes",
}


class Refused(Exception):
    def __init__(self, number, place):
        self.number, self.place = number, place


def read(text):
    """The fields of an update text, as a dictionary; raises Refused."""
    if not text:
        raise Refused(1, 0)
    bits = text[0]
    if bits >= 32 or not bits & 1 or (bits & 8 and not bits & 2):
        raise Refused(2, 0)
    at = 1

    def take(n):
        nonlocal at
        if len(text) - at < n:
            raise Refused(1, len(text))
        at += n
        return text[at - n:at]

    fields = {"author": int.from_bytes(take(2), "big")}
    if bits & 2:
        part = take(6)
        fields["address"] = (part[0], int.from_bytes(part[1:5], "big"), part[5])
    if bits & 4:
        start = at
        count = take(1)[0]
        if not 1 <= count <= 8:
            raise Refused(3, start)
        digests = []
        for _ in range(count):
            start = at
            digest = take(32)
            if digests and digests[-1] >= digest:
                raise Refused(3, start)
            digests.append(digest)
        fields["predecessors"] = digests
    if bits & 8:
        start = at
        length = take(1)[0]
        if not 1 <= length <= 64:
            raise Refused(4, start)
        fields["value"] = take(length)
    if bits & 16:
        fields["seal"] = take(32)
    if at < len(text):
        raise Refused(1, at)
    return fields


def shown(text):
    try:
        fields = read(text)
    except Refused as r:
        return ["refused %d at %d: %s" % (r.number, r.place, CAUSE[r.number])]
    lines = ["an update of %d bytes" % len(text), "  author %d" % fields["author"]]
    if "address" in fields:
        lines.append("  table %d, row %d, column %d" % fields["address"])
    if "value" in fields:
        value = fields["value"]
        plain = all(0x20 <= b <= 0x7e for b in value)
        lines.append("  value " + value.hex() + (' "%s"' % value.decode("ascii") if plain else ""))
    elif "address" in fields:
        lines.append("  no value: the entry is emptied")
    for digest in fields.get("predecessors", []):
        lines.append("  predecessor " + digest.hex())
    if "seal" in fields:
        lines.append("  seal " + fields["seal"].hex())
    return lines


def not_hex(line):
    """The first fault of a line that is no hexadecimal text, or None."""
    for place, c in enumerate(line):
        if c not in b"0123456789abcdefABCDEF":
            return "no digit at %d" % place
    return "an odd number of digits" if len(line) % 2 else None


def output(data):
    lines = data.split(b"\n")
    if lines[-1] == b"":
        lines.pop()
    out, read_, refused, spoilt = [], 0, 0, 0
    for number, line in enumerate(lines, 1):
        fault = not_hex(line)
        if fault is not None:
            spoilt += 1
            out.append("%d: not hexadecimal: %s" % (number, fault))
            continue
        text = shown(bytes.fromhex(line.decode("ascii")))
        refused += text[0].startswith("refused")
        read_ += text[0].startswith("an update")
        out.append("%d: %s" % (number, text[0]))
        out.extend(text[1:])
    out.append("%d read, %d refused, %d not hexadecimal" % (read_, refused, spoilt))
    return ("\n".join(out) + "\n").encode("ascii")


def any_text(rng):
    """A text of random fields, all in order."""
    bits = 1 | rng.choice([0, 2, 2, 10, 10]) | rng.choice([0, 4]) | rng.choice([0, 16])
    text = bytes([bits]) + rng.randbytes(2)
    if bits & 2:
        text += rng.randbytes(6)
    if bits & 4:
        digests = sorted(rng.randbytes(32) for _ in range(rng.randint(1, 8)))
        text += bytes([len(digests)]) + b"".join(digests)
    if bits & 8:
        n = rng.randint(1, 64)
        value = bytes(rng.randint(0x20, 0x7e) for _ in range(n)) if rng.random() < 0.7 else rng.randbytes(n)
        text += bytes([n]) + value
    if bits & 16:
        text += rng.randbytes(32)
    return text


def spoilt(rng, text):
    """The text with one fault, or none that matters."""
    kind = rng.randrange(5)
    if kind == 0:
        return text[:rng.randint(0, len(text))]
    if kind == 1:
        return text + rng.randbytes(rng.randint(1, 3))
    at = rng.randrange(min(len(text), 12) if kind == 2 else len(text))
    return text[:at] + bytes([rng.randrange(256)]) + text[at + 1:]


def line_of(rng):
    text = any_text(rng)
    if rng.random() < 0.5:
        text = spoilt(rng, text)
    line = text.hex().encode("ascii")
    if rng.random() < 0.3:
        line = line.upper()
    if rng.random() < 0.05 and line:
        at = rng.randrange(len(line))
        line = line[:at] + bytes([rng.choice([0x20, 0x67, 0x2f, 0x3a, 0x40, 0x47, 0x60, 0xff])]) + line[at + 1:]
    if rng.random() < 0.03:
        line = line[:-1]
    return line


def cases():
    """Every field and every refusal of the reader, each at its edges."""
    low, high = "00" * 31 + "01", "ff" * 32
    eight = "".join("%064x" % n for n in range(1, 9))
    address, value = "0200000005" "01", "023237"
    longest = "1f0007" + address + "08" + eight + "40" + "41" * 64 + "ab" * 32
    return [
        "010007", "01ffff", "",                       # the author alone; the empty text
        "01", "0100", "01000700", "0100070000",       # cut inside the author; bytes left over
        "00", "02", "210007", "ff", "090007" "0141",  # maps that are not allowed
        "0b0007" + address + value, "0B0007" + address + "03e28491",
        "030007" + address, "030007" + "ff" "ffffffff" "ff", "030007" + address[:-2],
        "0b0007" + address, "0b0007" + address + "00", "0b0007" + address + "41", "0b0007" + address + "40",
        "0b0007" + address + "40" + "7e" * 64, "0b0007" + address + "01" + "1f", "0b0007" + address + "017f",
        "050007", "05000700", "05000709", "05000701" + low, "05000701" + low[:-2],
        "05000702" + low + high, "05000702" + high + low, "05000702" + low + low, "05000702" + low,
        "05000708" + eight, "05000708" + eight[:-2], "05000703" + low + high + low,
        "110007" + "cd" * 32, "110007" + "cd" * 31, "110007" + "cd" * 33,
        longest, longest + "00", longest[:-2],
        "0", "01000", "01000g", "g", "01 00 07", "0x010007", "010007\r", "01000\u00e9",
    ]


def main():
    mode = sys.argv[1] if len(sys.argv) > 1 else ""
    if mode == "input":
        rng = random.Random(20)
        lines = [c.encode("utf-8") for c in cases()] + [line_of(rng) for _ in range(60)]
        sys.stdout.buffer.write(b"".join(line + b"\n" for line in lines))
    elif mode == "output":
        sys.stdout.buffer.write(output(sys.stdin.buffer.read()))
    elif mode == "compare" and len(sys.argv) > 2:
        rounds = int(sys.argv[3]) if len(sys.argv) > 3 else 20
        for seed in range(rounds):
            rng = random.Random(seed)
            data = b"".join(line_of(rng) + b"\n" for _ in range(500))
            got = subprocess.run([sys.argv[2]], input=data, stdout=subprocess.PIPE, check=True).stdout
            if got != output(data):
                sys.exit("round %d differs" % seed)
        print("%d rounds of 500 lines alike" % rounds)
    else:
        sys.exit(__doc__)


main()
