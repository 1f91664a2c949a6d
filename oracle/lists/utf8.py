#!/usr/bin/env python3
# utf8.py [ORACLE] > crates/replay_utf8/stdin: byte strings with what a reading of them answers. The oracle is not asked, since the crate
# reads no UTF-8 of its own. The answers are worked out here from the Unicode Standard's Table 3-7, row by row, and 01's order of
# refusals; Python's own decoder (bytes.decode, strict) is run beside it on every string and must agree, in the text and in the place of
# the first fault.
# A case, before it its size in bytes as a little-endian u32. Nine words, then the bytes, zeros up to a whole word, then the code points:
#   room        elements of the lent output
#   cycled      so many bytes of the input are those of the unit, over and over
#   unit        bytes of the unit
#   tail        bytes after the cycled ones
#   number, place, count
#   run         code points of the cycled part: those of the unit, over and over
#   points      code points of the unit
# The unit's bytes and the tail's; the unit's code points and the tail's (none of either where the input is refused).
import functools
import random
import struct
import sys

SEED = 4
LONGEST_BYTES = 262144
LONGEST_TEXT = 65536
TOO_LONG, ILL_FORMED, NO_ROOM = 1, 2, 3

# Table 3-7: the bounds of each byte of a row
TABLE = [
    [(0x00, 0x7F)],
    [(0xC2, 0xDF), (0x80, 0xBF)],
    [(0xE0, 0xE0), (0xA0, 0xBF), (0x80, 0xBF)],
    [(0xE1, 0xEC), (0x80, 0xBF), (0x80, 0xBF)],
    [(0xED, 0xED), (0x80, 0x9F), (0x80, 0xBF)],
    [(0xEE, 0xEF), (0x80, 0xBF), (0x80, 0xBF)],
    [(0xF0, 0xF0), (0x90, 0xBF), (0x80, 0xBF), (0x80, 0xBF)],
    [(0xF1, 0xF3), (0x80, 0xBF), (0x80, 0xBF), (0x80, 0xBF)],
    [(0xF4, 0xF4), (0x80, 0x8F), (0x80, 0xBF), (0x80, 0xBF)],
]
FIXED_BITS = {1: 0x00, 2: 0xC0, 3: 0xE0, 4: 0xF0}


def row_at(data, i):
    """The size of the row whose bytes stand at i, or 0."""
    for row in TABLE:
        here = data[i : i + len(row)]
        if len(here) == len(row) and all(lo <= b <= hi for b, (lo, hi) in zip(here, row)):
            return len(row)
    return 0


def point_of(sequence):
    """Table 3-6 from right to left."""
    point = sequence[0] - FIXED_BITS[len(sequence)]
    for b in sequence[1:]:
        point = point * 64 + (b - 0x80)
    return point


@functools.lru_cache(maxsize=16)
def read(data):
    """The code points before the first fault, and its place, or the length."""
    text, i = [], 0
    while i < len(data):
        size = row_at(data, i)
        if size == 0:
            break
        text.append(point_of(data[i : i + size]))
        i += size
    try:
        decoded, fault = [ord(c) for c in data.decode("utf-8")], len(data)
    except UnicodeDecodeError as error:
        decoded, fault = [ord(c) for c in data[: error.start].decode("utf-8")], error.start
    assert (text, i) == (decoded, fault), data.hex()
    return text, i


def answer(data, room):
    text, fault = read(data)
    if len(data) > LONGEST_BYTES:
        return (TOO_LONG, 0, 0)
    if fault < len(data):
        return (ILL_FORMED, fault, 0)
    if len(text) > LONGEST_TEXT:
        return (TOO_LONG, 0, 0)
    if room < len(text):
        return (NO_ROOM, 0, 0)
    return (0, 0, len(text))


CASES = []


def case(tail, room, unit=b"", cycled=0):
    """A case: the unit's bytes over and over, `cycled` of them, and the tail. The cycled part must end with a whole sequence."""
    whole = (unit * (cycled // len(unit) + 1))[:cycled] if unit else b""
    number, place, count = answer(whole + tail, room)
    points, run, after = [], 0, []
    if number == 0:
        points, run, after = read(unit)[0], len(read(whole)[0]), read(tail)[0]
        assert (points * (run // len(points) + 1) if points else [])[:run] + after == read(whole + tail)[0]
    head = [room, cycled, len(unit), len(tail), number, place, count, run, len(points)]
    body = struct.pack("<9I", *head) + unit + tail
    body += bytes(-len(body) % 4) + struct.pack("<%dI" % (len(points) + len(after)), *points, *after)
    CASES.append(struct.pack("<I", len(body)) + body)


def text_case(data):
    """A string with room for two more than it has code points, exactly enough, and one short."""
    n = len(read(data)[0])
    case(data, n + 2)
    if read(data)[1] == len(data):
        case(data, n)
        if n > 0:
            case(data, n - 1)


def rows():
    """Each first byte, each bound of each following byte, and one off on both sides, alone and between other sequences."""
    edges = sorted({e for row in TABLE for lo, hi in row[1:] for e in (lo - 1, lo, hi, hi + 1)} | {0x00, 0xFF})
    ends = [0x7F, 0x80, 0xBF, 0xC0]
    for first in range(256):
        tails = [[]]
        if first >= 0x80:
            tails = [[b] for b in edges]
        if first >= 0xE0:
            tails = [[b, c] for b in edges for c in ends]
        if first >= 0xF0:
            tails = [[b, c, d] for b in edges for c in ends for d in ends] if first <= 0xF5 else [[b, 0x80, 0x80] for b in edges]
        for tail in tails:
            case(bytes([first] + tail), 4)
        for tail in tails[:: max(1, len(tails) // 6)]:
            case("a\u20ac".encode() + bytes([first] + tail) + b"z", 8)


def cuts():
    """Each row at its lowest and highest bytes, cut off at the end of the input after each byte, alone and after other sequences."""
    for row in TABLE:
        for side in (0, 1):
            whole = bytes(bounds[side] for bounds in row)
            for front in (b"", b"12345678", "\u00e9\U0001f600".encode()):
                for size in range(len(row) + 1):
                    text_case(front + whole[:size])


def runs():
    """ASCII of every length about the eights that the reader takes at once, whole and with another byte at each place."""
    for n in range(20):
        letters = bytes(0x41 + i % 26 for i in range(n))
        text_case(letters)
        for at in range(n):
            text_case(letters[:at] + "\u00e9".encode() + letters[at:])
            case(letters[:at] + b"\x80" + letters[at + 1 :], n)
        if n:
            case(letters[:-1] + b"\x7f", n)


def sizes():
    """The limits of bytes and of code points, out exactly full and one short, and the order of the causes."""
    for unit in (b"a", "\u00e9".encode(), "\u20ac".encode(), "\U0001f600".encode(), "a\u20ac".encode()):
        n = len(unit.decode())
        most = LONGEST_TEXT // n * len(unit)
        case(b"", LONGEST_TEXT, unit, most)
        case(b"", LONGEST_TEXT - 1, unit, most)
        case(b"", LONGEST_TEXT + 1, unit, most)
        case(b"z", LONGEST_TEXT + 1, unit, most)
        case(b"z", 0, unit, most)
        case(b"\xff", LONGEST_TEXT, unit, most)
        case(b"\xff", 0, unit, most)
        case(b"z\xff", LONGEST_TEXT + 1, unit, most)
    case(b"", 0, b"a", LONGEST_BYTES)
    case(b"", 0, b"a", LONGEST_BYTES + 1)
    case(b"\xff", 0, b"a", LONGEST_BYTES - 1)
    case(b"\xff", 0, b"a", LONGEST_BYTES)
    case(b"", LONGEST_TEXT, "\U0001f600".encode(), LONGEST_BYTES)
    case(b"a", LONGEST_TEXT + 1, "\U0001f600".encode(), LONGEST_BYTES)
    case(b"", 0)
    case(b"", 3)
    case("\ufeffa".encode(), 4)


def drawn(draw):
    """Texts drawn at random, whole and with one byte changed, left out or put in."""
    for _ in range(150):
        text = []
        for _ in range(draw.randint(1, 24)):
            lo, hi = draw.choice([(0x20, 0x7E), (0x20, 0x7E), (0x80, 0x7FF), (0x800, 0xD7FF), (0xE000, 0xFFFF), (0x10000, 0x10FFFF)])
            text.append(chr(draw.randint(lo, hi)))
        data = "".join(text).encode()
        text_case(data)
        at = draw.randrange(len(data))
        text_case(data[:at] + bytes([draw.randrange(256)]) + data[at + 1 :])
        text_case(data[:at] + data[at + 1 :])
        text_case(data[:at] + bytes([draw.randrange(256)]) + data[at:])


if __name__ == "__main__":
    rows()
    cuts()
    runs()
    sizes()
    drawn(random.Random(SEED))
    sys.stderr.write("%d cases, the longest %d bytes\n" % (len(CASES), max(map(len, CASES)) - 4))
    sys.stdout.buffer.write(b"".join(CASES))
