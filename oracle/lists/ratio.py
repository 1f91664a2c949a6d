#!/usr/bin/env python3
# ratio.py [ORACLE] > crates/replay_ratio/stdin: fractions of two counts and thresholds, with the answers of f32 arithmetic. The oracle is
# not asked, since it hands out no single quotient. An f32 is worked out here from exact fractions, rounded to the nearest with ties to
# even; ratio.rs beside this file works the same list out with Rust's own f32 and finds no difference.
# Little-endian u32 words, before each case its size in bytes:
#   1, then for each of eight fractions num, den, the bits of num/den (+0.0 over 0), the bits of what `if r >= 0.3 { r } else { 0.0 }`
#      leaves, and the literals 0.3, 0.35, 0.1, 0.34, 0.2 that r is at least, from the lowest bit on; then the bits of the sum, in order
#   2, the bits of a threshold, 1 where it is finite and 0 where not
import random
import struct
import sys
from fractions import Fraction

SEED = 5
MOST_NUM = 2**21
MOST_DEN = 2**17 + 2
LITERALS = [Fraction(3, 10), Fraction(7, 20), Fraction(1, 10), Fraction(17, 50), Fraction(1, 5)]
DIGITS = 24
LOWEST = -149


def rounded(x):
    """The f32 nearest to the fraction x >= 0, ties to even, as a fraction. No number here comes near the largest f32."""
    if x == 0:
        return Fraction(0)
    k = x.numerator.bit_length() - x.denominator.bit_length() - DIGITS
    while x >= Fraction(2) ** (k + DIGITS):
        k += 1
    k = max(k, LOWEST)
    unit = Fraction(2) ** k
    return round(x / unit) * unit  # Python rounds a Fraction's ties to even


def bits(x):
    """The bits of an f32: Python's float holds it exactly, and so does the pattern."""
    return struct.unpack("<I", struct.pack("<f", float(x)))[0]


CUTS = [rounded(k) for k in LITERALS]


def fractions_case(pairs):
    words = [1]
    total = None
    for num, den in pairs:
        r = rounded(Fraction(num, den)) if den else Fraction(0)
        reached = sum(1 << i for i, cut in enumerate(CUTS) if r >= cut)
        words += [num, den, bits(r), bits(r if r >= CUTS[0] else 0), reached]
        total = r if total is None else rounded(total + r)
    return words + [bits(total)]


def edges(draw):
    """Fractions at, just below and just above each cut-off, for the largest denominators and for drawn ones."""
    found = []
    for k in LITERALS:
        dens = list(range(1, 41)) + [MOST_DEN - i for i in range(20)] + [draw.randint(1, MOST_DEN) for _ in range(60)]
        dens += [k.denominator * draw.randint(1, MOST_DEN // k.denominator) for _ in range(40)]
        for den in dens:
            at = k.numerator * den // k.denominator
            found += [(num, den) for num in (at - 1, at, at + 1) if num >= 0]
    draw.shuffle(found)
    return found


def drawn(draw):
    den = draw.randint(1, draw.choice([10, 100, 1000, 65537, MOST_DEN]))
    return draw.randint(0, min(MOST_NUM, draw.choice([1, 2, 4, 8, 64]) * den)), den


def cases(draw):
    ends = [(0, 1), (0, 0), (5, 0), (MOST_NUM, 1), (1, MOST_DEN), (MOST_NUM, MOST_DEN), (1, 1), (MOST_NUM, MOST_DEN - 1)]
    yield fractions_case(ends)
    yield fractions_case(list(reversed(ends)))
    # proofs/Laws/DemandExample.antt of the crate ratio_demand: 4.5 parts in 2^24 away from the exact sum
    yield fractions_case([(819, 583), (409, 561), (812, 316), (1169, 900), (1183, 572), (9, 316), (91, 908), (248, 727)])
    at = edges(draw)
    for i in range(0, len(at) - 7, 8):
        yield fractions_case(at[i : i + 8])
    for _ in range(600):
        yield fractions_case([drawn(draw) for _ in range(8)])
    for _ in range(100):
        yield fractions_case([(draw.randint(0, MOST_NUM), draw.randint(0, MOST_DEN)) for _ in range(8)])
    infinity = 0x7F800000
    patterns = [0, 1, 0x7FFFFF, 0x800000, 0x3E4CCCCD, infinity - 1, infinity, infinity + 1, 0x7FC00000, 0x7FFFFFFF]
    patterns += [draw.randrange(2**31) for _ in range(40)] + [infinity + draw.randrange(2**23) for _ in range(20)]
    for p in patterns:
        for sign in (0, 1 << 31):
            yield [2, sign + p, int(p < infinity)]


def main():
    draw = random.Random(SEED)
    for words in cases(draw):
        sys.stdout.buffer.write(struct.pack("<I", 4 * len(words)) + struct.pack("<%dI" % len(words), *words))


main()
