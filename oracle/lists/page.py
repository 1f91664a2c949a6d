#!/usr/bin/env python3
# page.py [ORACLE] > crates/replay_page/stdin: readings and writings under code pages with what they answer. The oracle is not asked, since the crate has
# no page of its own. The answers are worked out here from the words of 02 [1]; under the three tables Python's own codecs are run beside them, but for the
# bytes that Python leaves undefined (tables/README.md).
# A case, before it its size in bytes as a little-endian u32: eight words, the page as u16 in 66 words, and the two units.
#   writing     0 reading, 1 writing
#   entries     of the page, at most 132
#   room        elements of the lent output
#   length      elements of the input: those of the unit, over and over
#   unit        elements of the unit
#   number, place, count
# The unit's elements, a word each; then what stands for each in the output (none of them where the input is refused).
import random
import struct
import sys
from pathlib import Path

SEED = 24
LONGEST_TEXT = 65536
ENTRIES, PAGE_ROOM, UNUSED = 128, 132, 0xFFFF
TOO_LONG, UNUSED_BYTE, NO_ROOM, BAD_PAGE, NOT_ON_PAGE = 1, 2, 3, 10, 11
TABLES = Path(__file__).resolve().parent.parent.parent / "tables" / "pages"
CODECS = {"windows-1251": "cp1251", "windows-1252": "cp1252", "iso-8859-2": "iso8859_2"}


def page_fault(page):
    """The first bad entry, 0 for a wrong number of them, or None."""
    if len(page) != ENTRIES:
        return 0
    seen = set()
    for i, entry in enumerate(page):
        if entry == UNUSED:
            continue
        if entry < 0x80 or 0xD800 <= entry <= 0xDFFF or entry in seen:
            return i
        seen.add(entry)
    return None


def images(page, writing):
    """What stands for each byte, or for each code point."""
    points = {byte: byte for byte in range(0x80)}
    points.update({0x80 + i: entry for i, entry in enumerate(page) if entry != UNUSED})
    return {point: byte for byte, point in points.items()} if writing else points


def answer(page, writing, whole, room):
    if len(whole) > LONGEST_TEXT:
        return (TOO_LONG, 0, 0)
    fault = page_fault(page)
    if fault is not None:
        return (BAD_PAGE, fault, 0)
    known = images(page, writing)
    for i, element in enumerate(whole):
        if element not in known:
            return (NOT_ON_PAGE if writing else UNUSED_BYTE, i, 0)
    if room < len(whole):
        return (NO_ROOM, 0, 0)
    return (0, 0, len(whole))


CASES = []


def case(page, writing, unit, room=None, length=None):
    """A case; without a room there is just enough, without a length the unit stands once."""
    length = len(unit) if length is None else length
    room = length if room is None else room
    whole = (list(unit) * (length // len(unit) + 1))[:length] if unit else []
    number, place, count = answer(page, writing, whole, room)
    told = [images(page, writing)[element] for element in unit] if number == 0 else []
    packed = struct.pack("<%dH" % PAGE_ROOM, *page, *[0] * (PAGE_ROOM - len(page)))
    head = [writing, len(page), room, length, len(unit), number, place, count]
    body = struct.pack("<8I", *head) + packed + struct.pack("<%dI" % (len(unit) + len(told)), *unit, *told)
    CASES.append(struct.pack("<I", len(body)) + body)


def tables():
    """Every byte of the three tables both ways, alone and together, and the code points beside each entry."""
    for name, codec in CODECS.items():
        page = list(struct.unpack("<128H", (TABLES / (name + ".bin")).read_bytes()))
        for byte, point in enumerate(page, 0x80):
            theirs = bytes([byte]).decode(codec, "ignore")
            assert point == (ord(theirs) if theirs else byte), (name, byte)
            assert not theirs or chr(point).encode(codec) == bytes([byte])
        every = list(range(256))
        points = every[:128] + page
        for writing, unit in ((0, every), (1, points)):
            for room in (None, 255, 257):
                case(page, writing, unit, room)
            for at in range(0, 256, 16):
                case(page, writing, unit[at : at + 16])
        for at in range(0, 128, 8):
            for beside in (-1, 1):
                case(page, 1, [page[at], page[at] + beside])
                case(page, 1, [page[at], page[at] + 0x10000])


def bad_pages(good):
    """A page bad in every way, at its first entry, its last, and another; two ways at once, of which the first counts; and other sizes."""
    for at in (0, 1, 64, 127):
        for entry in (0, 0x41, 0x7F, 0x80, 0xD7FF, 0xD800, 0xDBFF, 0xDC00, 0xDFFF, 0xE000, 0xFFFE, UNUSED):
            page = list(good)
            page[at] = entry
            for writing in (0, 1):
                case(page, writing, [0x41])
    for first, second in ((0, 127), (5, 6), (0, 1), (126, 127)):
        page = list(good)
        page[second] = page[first]
        case(page, 0, [0x41, 0x80])
        case(page, 1, [0x41, 0xFFFF])
        page[0] = 0x7F
        case(page, 0, [0x41])
    for size in (0, 1, 127, 129, 132):
        for writing in (0, 1):
            case((list(good) + [0x3000, 0x3001, 0x3002, 0x3003])[:size], writing, [0x41, 0xFFFFFFFF if writing else 0xFF])
    case([UNUSED] * 128, 0, [0x80, 0x7F])
    case([UNUSED] * 128, 0, [0x7F, 0])
    case([UNUSED] * 128, 1, [0x7F, 0])


def lacking(draw, good):
    """An unused byte and a code point that the page lacks at every place of a short input; the numbers that none has."""
    holes = [entry if i % 3 else UNUSED for i, entry in enumerate(good)]
    for at in range(6):
        for value in (0x80, 0x83, 0xFE):
            case(holes, 0, [0x81] * at + [value] + [0x82] * (5 - at))
        for value in (0xFFFF, 0x10000, 0x10041, 0x1FFFF, 0x110000, 0xFFFFFFFF, 0xD800, 0xDFFF, 0x80000041, 0xFFFE, 0x80, good[0], good[3]):
            case(holes, 1, [good[1]] * at + [value] + [0x41] * (5 - at))
    for value in range(0, 256, 5):
        case(holes, 0, [value])
    for _ in range(150):
        case(holes, 1, [draw.choice(good), draw.randrange(0x20000)])


def sizes(good):
    """The limits of length and room, and the order of the causes."""
    holes = [UNUSED] + list(good[1:])
    bad = list(good)
    bad[77] = 0x20
    for length in (LONGEST_TEXT - 1, LONGEST_TEXT, LONGEST_TEXT + 1):
        for room in (0, length - 1, length, LONGEST_TEXT + 1):
            for page in (holes, bad):
                for unit in ([0x41, 0x81], [0x41, 0x80]):
                    case(page, 0, unit, min(room, LONGEST_TEXT + 1), length)
                for unit in ([0x41, good[1]], [0x41, good[0]]):
                    case(page, 1, unit, min(room, LONGEST_TEXT + 1), length)
    for writing in (0, 1):
        case(good, writing, [])
        case(good, writing, [], 3)
        case(good, writing, [0], 0)
        case(good, writing, [0], 2)
        case(bad, writing, [], 0)


def drawn(draw):
    """Good pages drawn at random, any share of them unused, in any order."""
    allowed = [*range(0x80, 0xD800), *range(0xE000, 0xFFFF)]
    for turn in range(60):
        page = draw.sample(allowed, ENTRIES)
        for i in range(ENTRIES):
            if draw.randrange(60) < turn:
                page[i] = UNUSED
        used = [*range(0x80), *[entry for entry in page if entry != UNUSED]]
        case(page, 0, [draw.randrange(256) for _ in range(draw.randrange(1, 30))], 32)
        case(page, 0, [draw.choice([byte for byte in range(256) if byte < 0x80 or page[byte - 0x80] != UNUSED]) for _ in range(20)], 22)
        case(page, 1, [draw.choice(used) for _ in range(20)], 21)


if __name__ == "__main__":
    draw = random.Random(SEED)
    good = [0x20AC, 0x80, *draw.sample(range(0x100, 0xD800), 125), 0xFFFE]
    tables()
    bad_pages(good)
    lacking(draw, good)
    sizes(good)
    drawn(draw)
    sys.stderr.write("%d cases, the longest %d bytes\n" % (len(CASES), max(map(len, CASES)) - 4))
    sys.stdout.buffer.write(b"".join(CASES))
