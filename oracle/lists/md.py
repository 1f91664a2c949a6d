#!/usr/bin/env python3
# md.py ORACLE > crates/replay_md/stdin: mess_ratio's whole answers. What is accepted is answered by the oracle (`oracle serve`, made from the
# crate at 1bcded52e1, over tables/); what is refused, which the oracle never does, by a second writing of 01's causes in this script.
# Texts of every script, of random scalar values and of noise; lengths around the places where the period changes and a checkpoint stands;
# thresholds equal to the sum at a checkpoint, one float either side, and fixed ones; every cause of refusal and every pair of causes.
# Before each case its size in bytes. The first is the class table, the second the pair table with four bytes of 0 behind it; then, in
# little-endian u32 words: kind, threshold, bytes of the pair table, bytes of the class table, the 37 numbers of the answer (number, place,
# eight ratios, sum, fed, stopped, and of each detector numerator, denominator and mark; floats as bits), and then, by the kind,
#   1: the text; the class table is the first bytes of tables/classes.bin
#   2: the class table, in whole words, and the text
#   3: the length of a text and the one character that it repeats
import os
import random
import struct
import subprocess
import sys

SEED = 7
HERE = os.path.dirname(os.path.abspath(__file__))
TABLES = os.path.join(HERE, "..", "..", "tables")
LONGEST_TEXT = 65536
PAIR_BYTES = 32768
RECORD = 24
MOST_RECORDS = 8192
STATED = 0x3E4CCCCD  # f32 0.2, stated in each call
NAN, INFINITY, MINUS = 0x7FC00000, 0x7F800000, 0x80000000
TEXT, OWN, REPEATED = 1, 2, 3


class Oracle:
    def __init__(self, path):
        self.p = subprocess.Popen([path, "serve"], stdin=subprocess.PIPE, stdout=subprocess.PIPE, text=True)

    def ask(self, line):
        self.p.stdin.write(line + "\n")
        self.p.stdin.flush()
        return self.p.stdout.readline().split()

    def mess(self, threshold, text):
        a = self.ask("mess %08X %s" % (threshold, points(text)))
        ratios = [int(x, 16) for x in a[1:9]]
        return [0, 0] + ratios + [int(a[0], 16), int(a[9]), int(a[10])] + shown(a[11:19], ratios)

    def sum_alone(self, text):
        return int(self.ask("alone " + points(text))[0], 16)


def shown(counters, ratios):
    """02 [7]: numerator, denominator, and a mark that holds exactly if both are above 0 and the ratio is 0."""
    numbers = []
    for counter, ratio in zip(counters, ratios):
        over, under = map(int, counter.split(":"))
        numbers += [over, under, int(over > 0 and under > 0 and ratio == 0)]
    return numbers


def points(text):
    return ",".join("%X" % c for c in text) if text else "-"


def beside(bits, step):
    """The f32 just above (1) or below (-1) one that is not negative."""
    if bits == 0 and step < 0:
        return MINUS + 1
    return bits + step


def finite(bits):
    return bits % MINUS < INFINITY


def scalar(c):
    return c <= 0x10FFFF and not 0xD800 <= c <= 0xDFFF


def flags_good(f):
    b = lambda i: f >> i & 1
    return (
        not (b(21) and b(22))
        and b(20) == (b(21) | b(22))
        and (not b(20) or b(13))
        and b(13) + b(23) + b(0) + b(1) <= 1
        and (not b(0) or (b(7) and not (b(4) or b(5) or b(3))))
        and sum(b(i) for i in (12, 15, 16, 17, 18, 19)) <= 1
        and f >> 25 == 0
        and not f >> 8 & 15
    )


def records(table):
    return [struct.unpack_from("<IIIHHII", table, i) for i in range(0, len(table) // RECORD * RECORD, RECORD)]


def bad_record(table):
    """Refusal 5's place, or None."""
    if len(table) % RECORD or len(table) // RECORD > MOST_RECORDS:
        return 0
    before = 0x24F
    for i, (first, last, flags, rng, zero, base, lower) in enumerate(records(table)):
        good = 0x250 <= first <= last <= 0x10FFFF and (last < 0xD800 or first > 0xDFFF) and first > before
        good = good and rng <= 511 and zero == 0 and scalar(base) and scalar(lower) and flags_good(flags)
        if not good:
            return i
        before = last
    return None


def refusal(text, threshold, table, pair_bytes):
    """01's causes in the order of scoring: 1, 4, 5, 7, 6."""
    if len(text) > LONGEST_TEXT:
        return [1, 0]
    if not finite(threshold):
        return [4, 0]
    place = bad_record(table)
    if place is not None:
        return [5, place]
    if pair_bytes != PAIR_BYTES:
        return [7, 0]
    held = [(r[0], r[1]) for r in records(table)]
    for i, c in enumerate(text):
        if c >= 0x250 and not any(a <= c <= b for a, b in held):
            return [6, i]
    return None


SAMPLES = {
    "latin": "The signal at the north junction shows stop; train 4711 waits. ",
    "french": "Le sémaphore du poste nord est fermé; où est l'élève à l'hôtel? Noël, çà et là. ",
    "russian": "Светофор у северного поста закрыт, поезд ждёт разрешения. ",
    "greek": "Το σήμα στη βόρεια διασταύρωση είναι κλειστό. ",
    "chinese": "北站信号机显示停车，列车等待许可。丄丅丄丅",
    "japanese": "北の信号機は停止です。カタカナとひらがな、漢字。",
    "korean": "북쪽 신호기는 정지입니다. 열차가 기다립니다. ",
    "arabic": "الإشارة الشمالية مغلقة والقطار ينتظر. ",
    "thai": "สัญญาณด้านเหนือปิดอยู่ ",
    "noise": "".join(map(chr, list(range(0, 32)) + list(range(0x7F, 0xA0)))),
    "marks": "!?;:,.+<>=~|_-*/\\@#$%^&()[]{}«»¿¡§¶€£¥©®™½¼²³",
    "accents": "ÀÉÎÕÜàéîõüŠŽšžŐőŰűÇçÑñÅåØøĄąĘęŁłŚśŹźŻż",
    "case": "aBcDeFgHÀbÉdÎfÕhжЖзЗиИйЙ ΑαΒβΓγ",
    "emoji": "😀👍🏽🚦🚂⚠️✅❌1️⃣",
}


def texts(draw):
    names = list(SAMPLES)

    def piece(name, n):
        s = SAMPLES[name]
        at = draw.randrange(len(s))
        return [ord(c) for c in (s * (n // len(s) + 2))[at : at + n]]

    def some(n):
        kind = draw.randrange(5)
        if kind == 0:
            return piece(draw.choice(names), n)
        if kind == 1:
            out = []
            while len(out) < n:
                out += piece(draw.choice(names), draw.randint(1, 20))
            return out[:n]
        if kind == 2:
            return [draw.choice([c for c in range(0x250) if c != 0x130]) for _ in range(n)]
        if kind == 3:
            out = []
            while len(out) < n:
                c = draw.randrange(0x110000)
                if scalar(c):
                    out.append(c)
            return out
        return [ord(draw.choice(SAMPLES[draw.choice(names)])) for _ in range(n)]

    short = [some(n) for n in (0, 1, 2, 3, 7, 8, 15, 16, 17, 30, 31, 32, 33, 62, 63, 64, 65, 95, 96, 97) for _ in range(26)]
    long = [some(n) for n in (510, 511, 512, 1022, 1023, 1024, 1025, 127, 128, 255, 256) for _ in range(4)]
    return short + long


def period(n):
    return 32 if n <= 510 else 64 if n <= 1023 else 128


def thresholds(oracle, text, draw):
    fed = text + [10]
    p = period(len(text))
    checkpoints = [i for i in range(len(fed)) if i % p == p - 1]
    found = [STATED, draw.choice([0, MINUS, 0x3DCCCCCD, 0x3F800000, 0xBF800000, 0x7F7FFFFF, 0x00000001, 0x41980000])]
    if checkpoints:
        sums = oracle.sum_alone(fed[: draw.choice(checkpoints) + 1])
        found += [sums, beside(sums, 1), beside(sums, -1)]
    return found[2:] if len(text) > 100 else found


def words(values):
    return struct.pack("<%dI" % len(values), *values)


def main():
    oracle = Oracle(sys.argv[1])
    draw = random.Random(SEED)
    table = open(os.path.join(TABLES, "classes.bin"), "rb").read()
    pairs = open(os.path.join(TABLES, "pairs.bin"), "rb").read()
    cases = [table, pairs + bytes(4)]
    refused = [0] * 35

    def put(kind, threshold, pair_bytes, class_bytes, answer, rest):
        cases.append(words([kind, threshold, pair_bytes, class_bytes] + answer) + rest)

    for text in texts(draw):
        for threshold in thresholds(oracle, text, draw):
            put(TEXT, threshold, PAIR_BYTES, len(table), oracle.mess(threshold, text), words(text))

    # the causes one by one, and every two of them together
    good = table[: 3 * RECORD]
    touching = good[:RECORD] + good[:RECORD]
    causes = {
        4: dict(threshold=[NAN, INFINITY, INFINITY + MINUS]),
        5: dict(own=[good[:-1], touching, good[:12] + b"\0\2" + good[14:], good + good[:8]]),
        7: dict(pair_bytes=[0, 1, PAIR_BYTES - 1, PAIR_BYTES + 1]),
        6: dict(text=[[97, 0xD800], [0x110000], [98] * 40 + [0xFFFFFFFF], [0x4E00, 97]]),
    }
    base = dict(threshold=STATED, own=good, pair_bytes=PAIR_BYTES, text=[97, 98, 99])

    def refuse(**changes):
        at = dict(base, **changes)
        why = refusal(at["text"], at["threshold"], at["own"], at["pair_bytes"])
        padded = at["own"] + bytes(-len(at["own"]) % 4)
        put(OWN, at["threshold"], at["pair_bytes"], len(at["own"]), why + refused, padded + words(at["text"]))

    for cause in causes:
        for name, values in causes[cause].items():
            for value in values:
                refuse(**{name: value})
                for other in causes:
                    for name2, values2 in causes[other].items():
                        if other > cause:
                            for value2 in values2:
                                refuse(**{name: value, name2: value2})
    for length, threshold, pair_bytes, class_bytes in (
        (LONGEST_TEXT + 1, STATED, PAIR_BYTES, len(table)),
        (LONGEST_TEXT + 1, NAN, PAIR_BYTES, len(table)),
        (LONGEST_TEXT + 1, STATED, 0, len(table)),
        (LONGEST_TEXT + 1, STATED, PAIR_BYTES, 23),
    ):
        put(REPEATED, threshold, pair_bytes, class_bytes, [1, 0] + refused, words([length, 97]))
    put(REPEATED, STATED, PAIR_BYTES, len(table), [1, 0] + refused, words([LONGEST_TEXT + 1, 0xD800]))
    for length, threshold in ((LONGEST_TEXT, 0x7F7FFFFF), (LONGEST_TEXT, 0), (LONGEST_TEXT - 1, 0x7F7FFFFF)):
        put(REPEATED, threshold, PAIR_BYTES, len(table), oracle.mess(threshold, [0x4E04] * length), words([length, 0x4E04]))

    out = sys.stdout.buffer
    for case in cases:
        out.write(struct.pack("<I", len(case)) + case)
    sys.stderr.write("%d cases\n" % (len(cases) - 2))


if __name__ == "__main__":
    main()
