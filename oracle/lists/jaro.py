#!/usr/bin/env python3
# jaro.py ORACLE > crates/replay_jaro/stdin: pairs of lists of letters with their Jaro measure, and f64s with their nearest f32.
#
# The f32 of a pair is the oracle's answer to `jaro`. The oracle gives neither m, t nor the f64: these come from `measure` below, a writing
# of 01 of its own, whose f64, rounded to f32, has to be the oracle's answer. The three worked examples carry the published m, t and value.
# The pairs: the worked examples, both ways round; a letter at the window's last place and one past it; words over few letters, so that
# they repeat; distinct letters, shuffled a little, with strangers put in; each record of tables/languages.bin against its own letters
# disordered, as a layer's are; and the longest lists. Two empty lists are left out: 01 gives 0, strsim 1, and no record is empty.
# The f64s are +0 and numbers from 1/8 to 1, all that `nearest_f32` takes: drawn f32s, the numbers half way to the next f32, their two
# neighbours, drawn f64s, the ends of each power of two, and measures of drawn counts. The f32 is worked out twice: by struct, which
# converts as C does, and from the digits, ties to even.
#
# Little-endian u32 words, before each case its size in bytes:
#   1, the layer's length a, the language's length b, m, t, the f64's bits (low word first), the f32's bits, a letters, b letters
#   2, the f64's bits (low word first), the f32's bits
import os
import random
import struct
import subprocess
import sys
from fractions import Fraction

SEED = 10
MOST_LETTERS = 8193  # distinct letters of a layer
LANGUAGE_LETTERS = 256
LANGUAGE_RECORD = 1032
WORKED = [("MARTHA", "MARHTA", 6, 1, "0.944"), ("DWAYNE", "DUANE", 4, 0, "0.822"), ("DIXON", "DICKSONX", 4, 0, "0.767")]


def measure(a, b):
    """m, t and the f64 of two lists, as 01 words it. Python's float is an f64 and rounds each operation once."""
    window = max(max(len(a), len(b)) // 2 - 1, 0)
    free = [True] * len(b)
    matched = []
    for i, x in enumerate(a):
        for j in range(max(i - window, 0), min(i + window + 1, len(b))):
            if free[j] and b[j] == x:
                free[j] = False
                matched.append(x)
                break
    m = len(matched)
    others = [y for y, f in zip(b, free) if not f]
    t = sum(x != y for x, y in zip(matched, others)) // 2
    return m, t, value(m, t, len(a), len(b))


def value(m, t, a, b):
    return (m / a + m / b + (m - t) / m) / 3 if m else 0.0


def bits64(x):
    return struct.unpack("<Q", struct.pack("<d", x))[0]


def float64(bits):
    return struct.unpack("<d", struct.pack("<Q", bits))[0]


def bits32(x):
    """The nearest f32's bits, by struct and once more from the digits."""
    by_struct = struct.unpack("<I", struct.pack("<f", x))[0]
    if x == 0:
        by_digits = 0
    else:
        k = 24
        while Fraction(x) * 2**k >= 2**24:
            k -= 1
        while Fraction(x) * 2**k < 2**23:
            k += 1
        digits = round(Fraction(x) * 2**k)  # Python rounds a Fraction's ties to even
        by_digits = struct.unpack("<I", struct.pack("<f", float(Fraction(digits, 2**k))))[0]
    assert by_struct == by_digits, x
    return by_struct


def split(u):
    return [u % 2**32, u // 2**32]


def scalar(draw, first=0x41, last=0xFFFF):
    while True:
        p = draw.randint(first, last)
        if not 0xD800 <= p <= 0xDFFF:
            return p


def disordered(draw, letters, reach):
    """The letters, each moved by up to `reach` places."""
    return [x for _, x in sorted((i + draw.uniform(0, reach), x) for i, x in enumerate(letters))]


def languages():
    path = os.path.join(os.path.dirname(os.path.abspath(__file__)), "..", "..", "tables", "languages.bin")
    with open(path, "rb") as file:
        table = file.read()
    for at in range(0, len(table), LANGUAGE_RECORD):
        count = struct.unpack_from("<H", table, at + 4)[0]
        yield list(struct.unpack_from("<%dI" % count, table, at + 8))


def pairs(draw):
    for a, b, _, _, _ in WORKED:
        yield [ord(x) for x in a], [ord(x) for x in b]
        yield [ord(x) for x in b], [ord(x) for x in a]
    yield [], [0x41]
    yield [0x41], []
    for n in (1, 2, 3, 4, 5, 6, 7, 8, 9, 16, 31, 64, 65, 66, 67, 128, 256):
        window = max(n // 2 - 1, 0)
        for far in (window, window + 1):
            for i, j in ((0, far), (far, 0), (n - 1, n - 1 - far)):
                if 0 <= i < n and 0 <= j < n:
                    a, b = [0x1000 + k for k in range(n)], [0x2000 + k for k in range(n)]
                    a[i] = b[j] = 0x41
                    yield a, b
    for _ in range(700):
        few = draw.choice([1, 2, 3, 5, 10, 26])
        a, b = [[0x61 + draw.randrange(few) for _ in range(draw.randint(1, draw.choice([3, 8, 20, 40])))] for _ in range(2)]
        yield a, b
    for _ in range(250):
        n = draw.randint(1, draw.choice([5, 30, 80]))
        letters = draw.sample(range(0x41, 0x41 + 3 * n), n)
        a = disordered(draw, letters, draw.choice([1, 2, 5, n]))
        for _ in range(draw.choice([0, 0, 1, 5])):
            a.insert(draw.randint(0, len(a)), scalar(draw, 0x400))
        yield a[: draw.randint(1, len(a))], letters
    for letters in languages():
        for reach in (1.5, 4, 12):
            a = disordered(draw, letters, reach)
            for _ in range(draw.randint(0, 10)):
                a.insert(draw.randint(0, len(a)), scalar(draw, 0x400))
            yield a, letters
    for a, b, strangers in ((MOST_LETTERS, LANGUAGE_LETTERS, 0), (MOST_LETTERS, LANGUAGE_LETTERS, 128), (3000, 100, 40), (600, 256, 100)):
        layer = draw.sample(range(0x4E00, 0x4E00 + 2 * a), a)
        yield layer, disordered(draw, layer[: b - strangers], 40) + [0x41 + k for k in range(strangers)]


def numbers(draw):
    eighth, one = bits32(0.125), bits32(1.0)
    yield 0.0
    for x in (0.125, 0.25, 0.5, 1.0):
        u = bits64(x)
        for step in (-(2**30), -(2**29) - 1, -(2**29), -(2**29) + 1, -(2**28) - 1, -(2**28), -(2**28) + 1, -1, 0, 1, 2**28 - 1, 2**28, 2**28 + 1, 2**29, 2**30):
            if bits64(0.125) <= u + step <= bits64(1.0):
                yield float64(u + step)
    for _ in range(1200):
        q = draw.randrange(eighth, one)
        low, high = [bits64(struct.unpack("<f", struct.pack("<I", n))[0]) for n in (q, q + 1)]
        half = (low + high) // 2
        assert Fraction(float64(half)) * 2 == Fraction(float64(low)) + Fraction(float64(high))
        for u in (low, half - 1, half, half + 1, draw.randint(low, half), draw.randint(half, high)):
            yield float64(u)
    for _ in range(1500):
        yield float64(draw.randint(bits64(0.125), bits64(1.0)))
    for _ in range(1500):
        a, b = draw.randint(1, draw.choice([30, 300, MOST_LETTERS])), draw.randint(1, LANGUAGE_LETTERS)
        m = draw.randint(1, min(a, b))
        yield value(m, draw.randint(0, m // 2), a, b)


def shown(letters):
    return ",".join("%X" % x for x in letters) or "-"


def answers(oracle, asked):
    lines = "".join("jaro %s %s\n" % (shown(a), shown(b)) for a, b in asked)
    said = subprocess.run([oracle, "serve"], input=lines, capture_output=True, text=True, check=True).stdout.split()
    assert len(said) == len(asked)
    return [int(word, 16) for word in said]


def main():
    draw = random.Random(SEED)
    asked = list(pairs(draw))
    cases = []
    for (a, b), said in zip(asked, answers(sys.argv[1], asked)):
        assert len(a) <= MOST_LETTERS and len(b) <= LANGUAGE_LETTERS
        m, t, x = measure(a, b)
        assert bits32(x) == said, (a, b)
        cases.append([1, len(a), len(b), m, t] + split(bits64(x)) + [said] + a + b)
    for case, (a, b, m, t, said) in zip(cases[: 2 * len(WORKED) : 2], WORKED):
        assert case[3:5] == [m, t] and "%.3f" % measure(a, b)[2] == said, a
    for x in numbers(draw):
        assert x == 0 or 0.125 <= x <= 1
        cases.append([2] + split(bits64(x)) + [bits32(x)])
    for words in cases:
        sys.stdout.buffer.write(struct.pack("<%dI" % (len(words) + 1), 4 * len(words), *words))


main()
