#!/usr/bin/env python3
# layers.py ORACLE > crates/replay_layers/stdin: texts with their layers and each layer's letters by popularity.
#
# The layers are the oracle's answer to `layers`: alpha_unicode_split of the crate, its hash map kept in making order. Before that the oracle
# is lent the classes of the letters in the text and a pair table, both drawn here: any range from 0 to 511, a character now and then not
# alphabetic to `char::is_alphabetic`, lower-case letters that are the letter itself or another, also one of another range; pair tables
# that are sparse, dense, not symmetric, and with ranges suspicious to themselves. Other texts are of the crate's own characters, with the
# crate's classes and tables/pairs.bin, U+0130 among them, which has two slots for its two lower-case letters. The oracle hands out no ranking:
# the one here is worked out from its layers, as 01 words it.
#
# Little-endian u32 words, before each case its size in bytes:
#   the number n of slots, of pairs, of layers, and the byte that fills the pair table; the pairs whose bits are flipped, as 512a + b; n ranges,
#   0 for a character that is not taken; n lowered letters; for each layer its length, its letters in text order, how many different ones, and
#   these by popularity
import os
import random
import struct
import subprocess
import sys
import tempfile
from collections import Counter

SEED = 10
RANGES = 512
PAIR_BYTES = 32768
LONGEST = 1024
MOST_PAIRS = 1024
LAST_WORD = 8192
CHAR_ALPHABETIC = 1 << 24
DOTTED_I = 0x130
DOT_ABOVE = 0x307
# code points for drawn classes: no surrogate among them
POOL = list(range(0x61, 0x7B)) + list(range(0xE0, 0x100)) + list(range(0x3B1, 0x3C9)) + list(range(0x4E00, 0x4F00)) + [0x10FFFF, 0x1F600, 0xFFFD, 0]
# blocks of the crate's own characters
BLOCKS = [(0x41, 0x7A), (0xC0, 0x17F), (0x370, 0x3FF), (0x400, 0x45F), (0x5D0, 0x5EA), (0x620, 0x64A), (0xE01, 0xE2E), (0x1E00, 0x1EFF), (0x3041, 0x3093), (0x30A1, 0x30F6), (0x4E00, 0x4E80), (0xAC00, 0xAC80), (0xFF21, 0xFF5A), (0x10400, 0x1044F), (0x1D400, 0x1D420)]


class Oracle:
    def __init__(self, path):
        self.run = subprocess.Popen([path, "serve"], stdin=subprocess.PIPE, stdout=subprocess.PIPE, text=True)

    def tell(self, line):
        self.run.stdin.write(line + "\n")

    def ask(self, line):
        self.tell(line)
        self.run.stdin.flush()
        return self.run.stdout.readline().rstrip("\n")

    def layers(self, text):
        answer = self.ask("layers " + (",".join("%X" % c for c in text) or "-"))
        return [[int(x, 16) for x in layer.split(",")] for layer in answer.split()]


def popular(letters):
    """The different letters by count falling, then code point rising."""
    counts = Counter(letters)
    return sorted(counts, key=lambda x: (-counts[x], x))


def bit(pairs, a, b):
    k = RANGES * a + b
    return pairs[k // 8] >> k % 8 & 1


def case(classes, pairs, fill, flipped, text, layers):
    """classes: code point -> (flags, range, lower). The fill and the flipped bits are checked against the table of the used ranges."""
    # one slot for each letter: U+0130 is two
    slots = [(c, lower) for c in text for lower in [classes[c][2] or c] + [DOT_ABOVE] * (c == DOTTED_I)]
    ranges = [classes[c][1] if classes[c][0] & CHAR_ALPHABETIC else 0 for c, _ in slots]
    letters = [lower for _, lower in slots]
    table = bytearray([fill]) * PAIR_BYTES
    for k in flipped:
        table[k // 8] ^= 1 << k % 8
    used = sorted(set(ranges) - {0})
    assert all(bit(table, a, b) == bit(pairs, a, b) for a in used for b in used)
    words = [len(slots), len(flipped), len(layers), fill] + flipped + ranges + letters
    for layer in layers:
        order = popular(layer)
        words += [len(layer)] + layer + [len(order)] + order
    assert len(slots) <= LONGEST and len(flipped) <= MOST_PAIRS and len(words) <= LAST_WORD, (len(slots), len(flipped), len(words))
    return struct.pack("<%dI" % len(words), *words)


def drawn(oracle, draw, folder, length, letters, ranges, density, dotted=False):
    """A text of drawn classes: so many letters, these ranges, and a share of suspicious pairs; with U+0130 in any range, or none."""
    pool = draw.sample(POOL, letters) + [DOTTED_I] * dotted
    oracle.tell("reset")
    classes = {}
    for c in pool:
        flags = CHAR_ALPHABETIC if draw.random() < 0.9 else 0
        lower = draw.choice(pool) if draw.random() < 0.3 else 0
        classes[c] = (flags, draw.choice(ranges), lower)
        oracle.tell("set %X %X %d 0 %X" % (c, flags, classes[c][1], lower))
    dense = density > 0.5
    marks = [a * RANGES + b for a in ranges for b in ranges if a and b and draw.random() < (1 - density if dense else density)]
    if len(marks) > MOST_PAIRS:
        marks = draw.sample(marks, MOST_PAIRS)
    fill = 255 if dense else 0
    pairs = bytearray([fill]) * PAIR_BYTES
    for k in marks:
        pairs[k // 8] ^= 1 << k % 8
    name = os.path.join(folder, "pairs")
    with open(name, "wb") as f:
        f.write(pairs)
    oracle.tell("pairs " + name)
    weights = [draw.random() ** 3 for _ in pool]
    text = draw.choices(pool, weights, k=length)
    return case(classes, pairs, fill, marks, text, oracle.layers(text))


def own(oracle, draw, pairs, length, blocks):
    """A text of the crate's own characters, of so many slots at most."""
    oracle.tell("reset")
    text = []
    while len(text) < length:
        first, last = draw.choice(blocks)
        text += [draw.randint(first, last)] * draw.choice([1, 1, 1, 2, 3])
    while len(text) + text.count(DOTTED_I) > length:
        text.pop()
    classes = {}
    for c in set(text):
        flags, number, _, lower = oracle.ask("class %X" % c).split()
        classes[c] = (int(flags, 16), int(number), int(lower, 16))
    used = sorted({k[1] for k in classes.values()} - {0})
    marks = [a * RANGES + b for a in used for b in used if bit(pairs, a, b)]
    return case(classes, pairs, 0, marks, text, oracle.layers(text))


def main():
    oracle = Oracle(sys.argv[1])
    draw = random.Random(SEED)
    here = os.path.dirname(os.path.abspath(__file__))
    with open(os.path.join(here, "..", "..", "tables", "pairs.bin"), "rb") as f:
        crate_pairs = f.read()
    cases = []
    with tempfile.TemporaryDirectory() as folder:
        def some(length, letters, ranges, density):
            cases.append(drawn(oracle, draw, folder, length, letters, ranges, density))

        for length in [0, 1, 2, 3]:
            for density in [0.0, 0.5, 1.0]:
                some(length, 3, [0, 1, 2], density)
        for _ in range(420):
            ranges = [0] + draw.sample(range(1, RANGES), draw.randint(1, 9))
            some(draw.randint(4, 60), draw.randint(2, 30), ranges, draw.choice([0.0, 0.2, 0.5, 0.5, 0.8, 0.95, 1.0]))
        for _ in range(24):
            ranges = draw.sample(range(1, RANGES), 40)
            some(draw.randint(100, 300), draw.randint(60, 200), ranges, draw.choice([0.5, 0.95, 0.99, 1.0]))
        # as many layers as letters, every range suspicious to every other and to itself; one layer of as many letters as places
        some(LONGEST, 330, list(range(1, RANGES)), 1.0)
        some(LONGEST, 330, [RANGES - 1], 0.0)
        for _ in range(150):
            cases.append(own(oracle, draw, crate_pairs, draw.randint(1, 120), draw.sample(BLOCKS, draw.randint(1, 4))))
        cases.append(own(oracle, draw, crate_pairs, LONGEST, BLOCKS))
        # U+0130: in ranges that are suspicious to themselves, too; among Turkish letters; alone, as often as there are slots for it
        for _ in range(40):
            ranges = [0] + draw.sample(range(1, RANGES), draw.randint(1, 4))
            cases.append(drawn(oracle, draw, folder, draw.randint(1, 60), draw.randint(1, 5), ranges, draw.choice([0.0, 0.5, 1.0]), dotted=True))
        for _ in range(20):
            cases.append(own(oracle, draw, crate_pairs, draw.randint(1, 120), [(DOTTED_I, DOTTED_I + 1)] + draw.sample(BLOCKS, draw.randint(1, 2))))
        for length in [2, 3, LONGEST]:
            cases.append(own(oracle, draw, crate_pairs, length, [(DOTTED_I, DOTTED_I)]))
    out = sys.stdout.buffer
    for c in cases:
        out.write(struct.pack("<I", len(c)) + c)


main()
