#!/usr/bin/env python3
# classes.py ORACLE > crates/replay_classes/stdin: class tables, good and damaged, with what their check says; and code points with their class.
#
# What the check says comes from `checked` below, a writing of 01 of its own. The tables: none of the causes, every cause alone in each place of
# three records, every two causes in two records and, where both fit, in one, lengths that are off by 1 to 23, 0, 1, 8,192 and 8,193 records, and
# good tables with bytes drawn anew. A table of thousands of records is not spelled out: the program makes it of the code points from U+0250 on,
# one a record, and sets one byte.
# The classes: of tables/classes.bin, every record's first and last code point, and all of the built-in table, each with the oracle's answer to
# `class`; of drawn tables with gaps, the code points at and beside each edge, by `held` below; and numbers that are no scalar value.
# The pair bits: of tables/pairs.bin, each row's and each column's first and last number, and drawn ones, by `pair` below.
#
# Little-endian u32 words, before each case its size in bytes:
#   1, number, place, records, the table's bytes: what the check says of them
#   2, number, place, records, n, at, byte: of the n records that the program makes, with that byte set at `at`
#   3, the table's size in bytes, the table, then six words a lookup: the code point, 1 or 0 for found, flags, range, base, lower
#   4, the number of lookups, three words a lookup: a, b, the bit; then the pair table
import os
import random
import struct
import subprocess
import sys

SEED = 3
RECORD = 24
MOST = 8192
BUILTIN_END = 0x250
LAST = 0x10FFFF
WHITESPACE, UNPRINTABLE, EMOTICON, COMMON_SAFE, WEIRD_SAFE, SEPARATOR = 0x1, 0x2, 0x8, 0x10, 0x20, 0x80
LATIN, ALPHABETIC, ACCENTUATED, CJK, HANGUL, KATAKANA, HIRAGANA, THAI = 0x1000, 0x2000, 0x4000, 0x8000, 0x10000, 0x20000, 0x40000, 0x80000
CASE_VARIABLE, LOWERCASE, UPPERCASE, NUMERIC = 0x100000, 0x200000, 0x400000, 0x800000
ASCII_BITS = [0x100, 0x200, 0x400, 0x800]
KINDS = [ALPHABETIC, NUMERIC, WHITESPACE, UNPRINTABLE]
SCRIPTS = [LATIN, CJK, HANGUL, KATAKANA, HIRAGANA, THAI]
FIELDS = ["first", "last", "flags", "range", "zero", "base", "lower"]
LAYOUT = "<IIIHHII"


def scalar(p):
    return p <= LAST and not 0xD800 <= p <= 0xDFFF


def at_most_one(flags, of):
    return sum(flags & f != 0 for f in of) <= 1


def flag_rule(f):
    upper, lower, cased = f & UPPERCASE != 0, f & LOWERCASE != 0, f & CASE_VARIABLE != 0
    return (
        not (upper and lower)
        and cased == (upper or lower)
        and (not cased or f & ALPHABETIC != 0)
        and at_most_one(f, KINDS)
        and (not f & WHITESPACE or (f & SEPARATOR != 0 and not f & (COMMON_SAFE | WEIRD_SAFE | EMOTICON)))
        and at_most_one(f, SCRIPTS)
    )


def good(r):
    """A record good in itself, in 01's order."""
    return (
        BUILTIN_END <= r["first"] <= r["last"] <= LAST
        and not (r["first"] <= 0xDFFF and 0xD800 <= r["last"])
        and r["range"] <= 511
        and r["zero"] == 0
        and (r["base"] == 0 or scalar(r["base"]))
        and (r["lower"] == 0 or scalar(r["lower"]))
        and flag_rule(r["flags"])
        and not any(r["flags"] & b for b in ASCII_BITS)
        and r["flags"] >> 25 == 0
    )


def unpack(table):
    return [dict(zip(FIELDS, struct.unpack_from(LAYOUT, table, i))) for i in range(0, len(table) - RECORD + 1, RECORD)]


def pack(records):
    return b"".join(struct.pack(LAYOUT, *(r[f] for f in FIELDS)) for r in records)


def checked(table):
    """number, place and count."""
    if len(table) % RECORD or len(table) // RECORD > MOST:
        return (5, 0, 0)
    last = None
    for i, r in enumerate(unpack(table)):
        if not good(r) or (last is not None and r["first"] <= last):
            return (5, i, 0)
        last = r["last"]
    return (0, 0, len(table) // RECORD)


def held(records, p):
    """The class of p in good records: flags, range, base and lower, or None."""
    holders = [r for r in records if r["first"] <= p <= r["last"]]
    assert len(holders) < 2
    return next(((r["flags"], r["range"], r["base"] or p, r["lower"] or p) for r in holders), None)


def plain(first, last, **more):
    return dict({f: 0 for f in FIELDS}, first=first, last=last, **more)


# each cause as what it makes of a record's fields, by the kind of the cause
LETTER = ALPHABETIC | CASE_VARIABLE
CAUSES = {
    "below": [dict(first=0x24F), dict(first=0), dict(first=0x24F, last=0x24F)],
    "turned": [dict(first=0x3001, last=0x3000), dict(first=0x10FFFF, last=0x250)],
    "past": [dict(last=0x110000), dict(last=0xFFFFFFFF), dict(first=0x110000, last=0x110000)],
    "surrogate": [
        dict(first=0xD800, last=0xD800),
        dict(first=0xDFFF, last=0xDFFF),
        dict(first=0xD7FF, last=0xD800),
        dict(first=0xDFFF, last=0xE000),
        dict(first=0xD000, last=0xE100),
    ],
    "range": [dict(range=512), dict(range=0xFFFF)],
    "zero": [dict(zero=1), dict(zero=0x100), dict(zero=0x8000)],
    "base": [dict(base=b) for b in (0xD800, 0xDFFF, 0x110000, 0xFFFFFFFF)],
    "lower": [dict(lower=b) for b in (0xD800, 0xDFFF, 0x110000, 0xFFFFFFFF)],
    "cases": [
        dict(flags=f)
        for f in (
            LETTER | UPPERCASE | LOWERCASE,
            LETTER,
            ALPHABETIC | UPPERCASE,
            ALPHABETIC | LOWERCASE,
            CASE_VARIABLE | UPPERCASE,
            CASE_VARIABLE | LOWERCASE,
            ALPHABETIC | UPPERCASE | LOWERCASE,
        )
    ],
    "kinds": [dict(flags=a | b | SEPARATOR) for i, a in enumerate(KINDS) for b in KINDS[:i]],
    "white": [dict(flags=WHITESPACE | f) for f in (0, SEPARATOR | COMMON_SAFE, SEPARATOR | WEIRD_SAFE, SEPARATOR | EMOTICON, EMOTICON)],
    "scripts": [dict(flags=a | b) for i, a in enumerate(SCRIPTS) for b in SCRIPTS[:i]],
    "ascii": [dict(flags=b) for b in ASCII_BITS],
    "high": [dict(flags=1 << b) for b in range(25, 32)],
}
SPANS = {"below", "turned", "past", "surrogate"}
GOOD_FLAGS = [
    0,
    LETTER | UPPERCASE | LATIN,
    LETTER | LOWERCASE | THAI,
    ALPHABETIC | CJK,
    NUMERIC | 0x1000000,
    WHITESPACE | SEPARATOR,
    UNPRINTABLE | COMMON_SAFE | WEIRD_SAFE | EMOTICON,
    HANGUL | ACCENTUATED | 0x4 | 0x40,
]


def three():
    return [plain(0x1000, 0x1FFF), plain(0x3000, 0x3000), plain(0x20000, 0x2FFFF)]


def tables():
    draw = random.Random(SEED)
    yield pack([])
    for r in [
        plain(0x250, 0x250),
        plain(0x10FFFF, 0x10FFFF),
        plain(0x250, 0xD7FF),
        plain(0xE000, 0x10FFFF),
        plain(0x3000, 0x3000, range=511, base=0x10FFFF, lower=0xD7FF),
        plain(0x3000, 0x3000, range=1, base=0xE000, lower=0x1),
    ]:
        yield pack([r])
    yield pack([plain(0x250, 0xD7FF), plain(0xE000, 0x10FFFF)])
    yield pack([plain(0x250, 0x250), plain(0x251, 0x251), plain(0x252, 0x300)])
    for f in GOOD_FLAGS:
        yield pack([plain(0x3000, 0x3000, flags=f)])
    # one cause
    for causes in CAUSES.values():
        for cause in causes:
            for i in range(3):
                records = three()
                records[i].update(cause)
                yield pack(records)
    # clashes: touching, inside, equal, around, descending
    for a, b in [((0x1000, 0x2000), s) for s in [(0x2000, 0x3000), (0x1800, 0x1900), (0x1000, 0x2000), (0x900, 0x3000), (0x300, 0x400)]]:
        yield pack([plain(*a), plain(*b)])
        yield pack([plain(0x250, 0x260), plain(*a), plain(*b), plain(*b)])
    # two causes, in two records and in one
    kinds = list(CAUSES)
    for a in kinds:
        for b in kinds:
            if a != b:
                records = three()
                records[1].update(draw.choice(CAUSES[a]))
                records[2].update(draw.choice(CAUSES[b]))
                yield pack(records)
            if a < b and not (a in SPANS and b in SPANS):
                records = three()
                both = dict(draw.choice(CAUSES[a]))
                for field, value in draw.choice(CAUSES[b]).items():
                    both[field] = both.get(field, 0) | value
                records[1].update(both)
                yield pack(records)
        records = three()
        records[2] = plain(0x3000, 0x3001)
        records[draw.choice([1, 2])].update(draw.choice(CAUSES[a]))
        yield pack(records)
    # lengths that are off, of good records and of a bad one
    for off in range(1, RECORD):
        yield pack(three()[:2]) + bytes(off)
        yield pack([plain(0, 0)]) + pack(three()[:1])[:off]
        yield bytes(off)
    # bytes drawn anew
    for _ in range(150):
        table = bytearray(pack(three() + [plain(0x30000, 0x3FFFF, flags=draw.choice(GOOD_FLAGS), range=draw.randrange(512))]))
        for _ in range(draw.randrange(1, 3)):
            table[draw.randrange(len(table))] = draw.choice([0, 1, 2, 0xFF, draw.randrange(256)])
        yield bytes(table)


def made():
    """n records that the program makes, and a byte to set; at n * 24 none is."""
    for n in (0, 1, 2, MOST - 1, MOST, MOST + 1):
        yield n, n * RECORD, 0
    for n in (2, MOST, MOST + 1):
        for i in (0, n // 2, n - 1):
            yield n, i * RECORD + 9, 1
            yield n, i * RECORD + 14, 1
            yield n, i * RECORD + 1, 0
            yield n, i * RECORD + 5, 0xFF


def make(n, at, byte):
    table = bytearray(pack([plain(BUILTIN_END + i, BUILTIN_END + i) for i in range(n)]))
    if at < len(table):
        table[at] = byte
    return bytes(table)


def lookup(p, found):
    return [p, 1, *found] if found else [p, 0, 0, 0, 0, 0]


def asked(oracle, points):
    """The oracle's classes. The tables have a base only where it is read, on an ACCENTUATED character; the oracle has one everywhere."""
    lines = "".join(f"class {p:x}\n" for p in points)
    answers = subprocess.run([oracle, "serve"], input=lines, capture_output=True, text=True, check=True).stdout.split("\n")
    for p, line in zip(points, answers):
        flags, number, base, lower = (int(w, b) for w, b in zip(line.split(), (16, 10, 16, 16)))
        yield p, (flags, number, base if flags & ACCENTUATED and base else p, lower or p)


def crate_lookups(oracle, table):
    records = unpack(table)
    points = sorted(set(range(BUILTIN_END)) | {r["first"] for r in records} | {r["last"] for r in records})
    for p, found in asked(oracle, points):
        yield lookup(p, found)
    for p in NO_SCALARS:
        yield lookup(p, None)


NO_SCALARS = [0xD800, 0xDBFF, 0xDC00, 0xDFFF, 0x110000, 0x7FFFFFFF, 0xFFFFFFFF]


def gapped(draw):
    """A good table with gaps."""
    edges = sorted(draw.sample([p for p in range(BUILTIN_END, LAST) if scalar(p)], 2 * draw.randrange(1, 20)))
    for a, b in zip(edges[::2], edges[1::2]):
        if a > 0xDFFF or b < 0xD800:
            number = draw.choice([0, draw.randrange(0x250)])
            yield plain(a, draw.choice([a, b]), flags=draw.choice(GOOD_FLAGS), range=draw.randrange(512), base=number, lower=draw.choice([0, b]))


def gapped_lookups(records):
    edges = [r["first"] for r in records] + [r["last"] for r in records]
    for p in sorted({e + d for e in edges for d in (-1, 0, 1)} - set(range(BUILTIN_END))) + NO_SCALARS:
        yield lookup(p, held(records, p))


def pair(table, a, b):
    k = 512 * a + b
    return table[k // 8] >> k % 8 & 1


def pair_lookups(table):
    draw = random.Random(SEED)
    edges = (0, 279, 511)
    asked = [(a, b) for a in range(512) for b in edges] + [(a, b) for a in edges for b in range(512)]
    asked += [(draw.randrange(280), draw.randrange(280)) for _ in range(1000)]
    return [[a, b, pair(table, a, b)] for a, b in asked]


def words(*numbers):
    return struct.pack(f"<{len(numbers)}I", *numbers)


def cases(oracle, tables_folder):
    for table in tables():
        yield words(1, *checked(table)) + table
    for n, at, byte in made():
        yield words(2, *checked(make(n, at, byte)), n, at, byte)
    with open(os.path.join(tables_folder, "classes.bin"), "rb") as file:
        table = file.read()
    assert checked(table)[0] == 0
    yield words(3, len(table)) + table + b"".join(words(*found) for found in crate_lookups(oracle, table))
    draw = random.Random(SEED)
    for _ in range(20):
        records = list(gapped(draw))
        assert checked(pack(records))[0] == 0
        yield words(3, len(records) * RECORD) + pack(records) + b"".join(words(*found) for found in gapped_lookups(records))
    with open(os.path.join(tables_folder, "pairs.bin"), "rb") as file:
        table = file.read()
    asked = pair_lookups(table)
    yield words(4, len(asked)) + b"".join(words(*bit) for bit in asked) + table


def main():
    here = os.path.dirname(os.path.abspath(__file__))
    for case in cases(sys.argv[1], os.path.join(here, "..", "..", "tables")):
        sys.stdout.buffer.write(words(len(case)) + case)


if __name__ == "__main__":
    main()
