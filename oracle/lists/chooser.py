#!/usr/bin/env python3
# chooser.py ORACLE > crates/replay_chooser/stdin: verdicts on pairs of texts, and the part that is handed back. The scores are the oracle's,
# at a threshold that no sum reaches, so that it never stops; the causes of refusal and the choice are written here from 01 (md.py beside
# this file has the causes). Pairs of equal scores, each refused, both refused, all newlines and none, and texts whose scores part only after
# the first checkpoint at or above 0.2.
# Before each case its size in bytes. The first is the class table, the second the pair table with four bytes of 0 behind it; then, in
# little-endian u32 words: bytes of the pair table, bytes of the class table, taken, refused, number, place, the length of the part that is
# handed back, the length of the first text, and the two texts.
import os
import random
import struct
import sys

from md import LONGEST_TEXT, PAIR_BYTES, STATED, TABLES, Oracle, refusal, texts, words

SEED = 8
UNREACHED = 0x7F7FFFFF  # the largest f32
SUM = 10  # the sum's place among the 13 numbers
NEWLINE = 10
ENOUGH = 260


def as_float(bits):
    return struct.unpack("<f", struct.pack("<I", bits))[0]


def cut(text):
    n = len(text)
    while n and text[n - 1] == NEWLINE:
        n -= 1
    return n


def verdict(oracle, first, second, table, pair_bytes):
    for which, text in ((1, first), (2, second)):
        why = refusal(text, STATED, table, pair_bytes)
        if why:
            return [0, which] + why + [0]
    a, b = (as_float(oracle.mess(UNREACHED, t)[SUM]) for t in (first, second))
    return [2, 0, 0, 0, cut(second)] if b < a else [1, 0, 0, 0, cut(first)]


def main():
    oracle = Oracle(sys.argv[1])
    draw = random.Random(SEED)
    table = open(os.path.join(TABLES, "classes.bin"), "rb").read()
    pairs = open(os.path.join(TABLES, "pairs.bin"), "rb").read()
    cases = [table, pairs + bytes(4)]

    def put(first, second, pair_bytes=PAIR_BYTES, class_bytes=len(table)):
        answer = verdict(oracle, first, second, table[:class_bytes], pair_bytes)
        cases.append(words([pair_bytes, class_bytes] + answer + [len(first)] + first + second))

    some = [t for t in texts(draw) if len(t) <= 128]
    for _ in range(ENOUGH):
        tails = [[NEWLINE] * draw.choice([0, 0, 1, 2, 5]) for _ in range(2)]
        put(draw.choice(some) + tails[0], draw.choice(some) + tails[1])
    for text in draw.sample(some, 20):
        put(text, text + [NEWLINE])
        put(text, text)
    for n in (0, 1, 2, 40):
        put([NEWLINE] * n, [97] * 3)
        put([97] * 3, [NEWLINE] * n)
        put([NEWLINE] * n, [NEWLINE])
    # both reach 0.2 at the first checkpoint; what follows parts them
    noisy = [ord(c) for c in "?!#%&@" * 6][:32]
    if as_float(oracle.sum_alone(noisy)) < as_float(STATED):
        sys.exit("chooser.py: the noisy text does not reach 0.2 at its first checkpoint")
    calm = [ord(c) for c in "the points are set and locked "] * 3
    for tail in (calm, noisy + calm, calm + noisy):
        put(noisy + tail, noisy + noisy + noisy)
        put(noisy + noisy + noisy, noisy + tail)
    bad, other = [97, 0xD800], [98, 98, 0x110000]
    for first, second in ((bad, calm), (calm, bad), (bad, other), (other, bad), ([], bad), (bad, [])):
        put(first, second)
        put(first, second, pair_bytes=0)
        put(first, second, class_bytes=23)
        put(first, second, pair_bytes=1, class_bytes=25)

    out = sys.stdout.buffer
    for case in cases:
        out.write(struct.pack("<I", len(case)) + case)
    sys.stderr.write("%d cases\n" % (len(cases) - 2))


if __name__ == "__main__":
    main()
