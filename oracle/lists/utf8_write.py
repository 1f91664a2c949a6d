#!/usr/bin/env python3
# utf8_write.py [ORACLE] > crates/replay_utf8_write/stdin: texts with what writing them as UTF-8 answers. The oracle is not asked, since the crate writes no
# UTF-8 of its own. The answers are worked out here from the Unicode Standard's Table 3-6, bit by bit, and 02 [3]'s order of refusals; Python's own encoder
# (str.encode) is run beside it on every text and must agree, in the bytes and in what has none.
# A case, before it its size in bytes as a little-endian u32. Nine words, then the numbers, then the bytes:
#   room        bytes of the lent output
#   cycled      so many numbers of the input are those of the unit, over and over
#   unit        numbers of the unit
#   tail        numbers after the cycled ones
#   number, place, count
#   run         bytes of the cycled part: those of the unit's form, over and over
#   form        bytes of the unit's form
# The unit's numbers and the tail's; the form of the unit and of the tail (none of either where the text is refused).
import functools
import random
import struct
import sys

SEED = 3
LONGEST_TEXT = 65536
TOO_LONG, NO_ROOM, NOT_SCALAR = 1, 3, 12

# Table 3-6: the last scalar value of each row, and the patterns of its bytes, each x a bit of the scalar value
TABLE = [
    (0x7F, ["0xxxxxxx"]),
    (0x7FF, ["110xxxxx", "10xxxxxx"]),
    (0xFFFF, ["1110xxxx", "10xxxxxx", "10xxxxxx"]),
    (0x10FFFF, ["11110xxx", "10xxxxxx", "10xxxxxx", "10xxxxxx"]),
]


def scalar(p):
    return p <= 0xD7FF or 0xE000 <= p <= 0x10FFFF


def form(p):
    """The bytes of a scalar value: its bits dealt out to the x of its row, the last first."""
    patterns = next(patterns for last, patterns in TABLE if p <= last)
    bits = list(format(p, "b").zfill(sum(pattern.count("x") for pattern in patterns)))
    out = bytes(int("".join(bits.pop(0) if c == "x" else c for c in pattern), 2) for pattern in patterns)
    assert not bits and out == chr(p).encode(), hex(p)
    return out


@functools.lru_cache(maxsize=16)
def write(text):
    """The bytes before the first number that is no scalar value, and its index, or the length."""
    ill = next((i for i, p in enumerate(text) if not scalar(p)), len(text))
    return b"".join(form(p) for p in text[:ill]), ill


def answer(text, room):
    out, ill = write(text)
    if len(text) > LONGEST_TEXT:
        return (TOO_LONG, 0, 0)
    if ill < len(text):
        return (NOT_SCALAR, ill, 0)
    if room < len(out):
        return (NO_ROOM, 0, 0)
    return (0, 0, len(out))


CASES = []


def case(tail, room, unit=(), cycled=0):
    """A case: the unit's numbers over and over, `cycled` of them, and the tail."""
    tail, unit = tuple(tail), tuple(unit)
    whole = (unit * (cycled // len(unit) + 1))[:cycled] if unit else ()
    number, place, count = answer(whole + tail, room)
    first, run, after = b"", 0, b""
    if number == 0:
        first, run, after = write(unit)[0], len(write(whole)[0]), write(tail)[0]
        assert (first * (run // len(first) + 1) if first else b"")[:run] + after == write(whole + tail)[0]
    body = struct.pack("<9I", room, cycled, len(unit), len(tail), number, place, count, run, len(first))
    body += struct.pack("<%dI" % (len(unit) + len(tail)), *unit, *tail) + first + after
    CASES.append(struct.pack("<I", len(body)) + body)


def text_case(text):
    """A text with room for two more than it has bytes, exactly enough, and one short."""
    n = len(write(tuple(text))[0])
    case(text, n + 2)
    if write(tuple(text))[1] == len(text):
        case(text, n)
        if n > 0:
            case(text, n - 1)


OTHERS = {0, 1, 0xD7FF, 0xD800, 0xDBFF, 0xDC00, 0xDFFF, 0xE000, 1 << 31, (1 << 31) + 0x41, (1 << 32) - 1}
EDGES = sorted({p for last, _ in TABLE for p in (last - 1, last, last + 1)} | OTHERS)


def rows():
    """The edges of each row and of the surrogates, alone, in pairs, and between others; each power of two and one off."""
    for a in EDGES:
        text_case([a])
        for b in EDGES:
            text_case([a, b])
            text_case([0x61, a, 0x20AC, b, 0x7A])
    for bit in range(32):
        for p in ((1 << bit) - 1, 1 << bit, (1 << bit) + 1):
            text_case([p])


def runs():
    """ASCII of every length about the eights that the writer takes at once, whole and with another code point at each place."""
    for n in range(20):
        letters = [0x41 + i % 26 for i in range(n)]
        text_case(letters)
        for at in range(n):
            text_case(letters[:at] + [0xE9] + letters[at:])
            text_case(letters[:at] + [0x80] + letters[at + 1 :])
            case(letters[:at] + [0xD800] + letters[at + 1 :], n)
        if n:
            case(letters[:-1] + [0x7F], n)


def sizes():
    """The limit of code points, out exactly full and one short, and the order of the causes."""
    for unit in ([0x61], [0xE9], [0x20AC], [0x1F600], [0x61, 0x20AC]):
        size = len(write(tuple(unit))[0]) * (LONGEST_TEXT // len(unit))
        for room in (size, size - 1, size + 1):
            case([], room, unit, LONGEST_TEXT)
        case([0x7A], size + 1, unit, LONGEST_TEXT)
        case([0xD800], size, unit, LONGEST_TEXT)
        case([0xDFFF], 0, unit, LONGEST_TEXT - 1)
        case([0xDFFF], size, unit, LONGEST_TEXT - 1)
    case([], 0)
    case([], 3)
    case([0xFEFF, 0x61], 4)


def drawn(draw):
    """Texts drawn at random, whole and with one number changed."""
    for _ in range(200):
        text = []
        for _ in range(draw.randint(1, 24)):
            lo, hi = draw.choice([(0x20, 0x7E), (0x20, 0x7E), (0x80, 0x7FF), (0x800, 0xD7FF), (0xE000, 0xFFFF), (0x10000, 0x10FFFF)])
            text.append(draw.randint(lo, hi))
        text_case(text)
        text[draw.randrange(len(text))] = draw.choice([draw.randrange(1 << 32), draw.randint(0xD800, 0xDFFF), draw.randint(0x110000, 0x120000)])
        text_case(text)


if __name__ == "__main__":
    rows()
    runs()
    sizes()
    drawn(random.Random(SEED))
    sys.stderr.write("%d cases, the longest %d bytes\n" % (len(CASES), max(map(len, CASES)) - 4))
    sys.stdout.buffer.write(b"".join(CASES))
