#!/usr/bin/env python3
"""plugins.py ORACLE [--branches]: writes the list of the crate replay_plugins to standard output: short texts of raw flag words, and what
the oracle's eight detectors answer to each, fed just these characters without the newline (its requests `set` and `alone`).

The texts: 2,600 of them, of 0 to 120 characters, drawn from a fixed seed by a generator of our own, so that every Python writes the same
list. Each text has an alphabet of its own: code points with flag words that no table need have, a range below 8 and a base. Some are random
bits, some every flag at once or none, most lean to one detector; the texts at the cut-offs are written out. One pair table of random bits
serves all.

That every branch of every detector is taken is seen here: `Counted` below is a second writing of plugins.rs, which counts each branch by
name as it is taken and whose ratios and counts are held to the oracle's. The script fails where one of them differs, or where a name in BRANCHES was
taken by no text; --branches prints the counts and writes no list.

A case, after its size in bytes as crates/replay reads it: little-endian u32, the sum and the eight ratios as f32 bits, of each detector its
numerator, its denominator and 1 where the ratio was cut off, and the number of letters in the alphabet; for each letter u32 for its code point, flags, range and base (never 0), and 8 bytes, of which the one at a is 1
where its range after range a is suspicious; then the text, a byte for each character, the place of its letter in the alphabet.
"""
import struct
import subprocess
import sys
import tempfile

from md import shown

TEXTS = 2600
RANGES = 8
NAMES = ("WHITESPACE UNPRINTABLE SYMBOL EMOTICON COMMON_SAFE WEIRD_SAFE PUNCTUATION SEPARATOR ASCII ASCII_ALPHABETIC ASCII_GRAPHIC "
         "ASCII_DIGIT LATIN ALPHABETIC ACCENTUATED CJK HANGUL KATAKANA HIRAGANA THAI CASE_VARIABLE LOWERCASE UPPERCASE NUMERIC").split()
F = {name: 1 << bit for bit, name in enumerate(NAMES)}
EVERY = 0xFFFFFFFF


def flags(names):
    return sum(F[n] for n in names.split())


class Random:
    """xorshift32: the same numbers everywhere."""

    def __init__(self, seed):
        self.x = seed

    def below(self, n):
        self.x ^= self.x << 13 & 0xFFFFFFFF
        self.x ^= self.x >> 17
        self.x ^= self.x << 5 & 0xFFFFFFFF
        return self.x % n

    def of(self, seq):
        return seq[self.below(len(seq))]

    def bits(self, width, one_in):
        """a word of `width` bits, each set once in `one_in`"""
        return sum(1 << b for b in range(width) if self.below(one_in) == 0)


class Letter:
    def __init__(self, point, word, range_=1, base=0):
        self.point, self.flags, self.range, self.base = point, word, range_, base or point

    def is_(self, name):
        return self.flags & F[name] != 0


def f32(x):
    return struct.unpack("<f", struct.pack("<f", x))[0]


def quotient(n, d):
    # the two counts are below 2^24, so the f64 quotient rounded to f32 is the f32 quotient
    return f32(n / d)


class Counted:
    """plugins.rs a second time, with `hit` where a branch is taken."""

    def __init__(self, pairs, hit):
        self.pairs, self.hit = pairs, hit
        self.sy = dict(p=0, s=0, n=0, last=None)
        self.ac = dict(n=0, a=0)
        self.un = dict(n=0, u=0)
        self.ra = dict(n=0, s=0, last=None)
        self.du = dict(n=0, s=0, last=None)
        self.we = dict(n=0, words=0, long=0, bad=False, watch=False, badn=0, accents=0, buf=[])
        self.st = dict(w=0, c=0)
        self.ar = dict(buf=False, ascii=True, since=0, run=0, final=0, n=0, last=None)

    def feed(self, c):
        for f in (self.symbols, self.accents, self.unprintable, self.ranges, self.doubled, self.words, self.stops, self.archaic):
            f(c)

    def symbols(self, c):
        s, hit = self.sy, self.hit
        if c.is_("UNPRINTABLE"):
            return hit("symbols: unprintable, not fed")
        s["n"] += 1
        if s["last"] is None:
            hit("symbols: no last character")
        if s["last"] == c.point:
            hit("symbols: the last character again" + (", of those that count" if c.is_("PUNCTUATION") and not c.is_("COMMON_SAFE") else ""))
        elif c.is_("COMMON_SAFE"):
            hit("symbols: COMMON_SAFE")
        elif c.is_("PUNCTUATION"):
            hit("symbols: punctuation" + (" that is a symbol" if c.is_("SYMBOL") else ""))
            s["p"] += 1
        elif c.is_("NUMERIC"):
            hit("symbols: a number" + (" that is a symbol" if c.is_("SYMBOL") else ""))
        elif not c.is_("SYMBOL"):
            hit("symbols: neither")
        elif c.is_("EMOTICON"):
            hit("symbols: an emoticon")
        else:
            hit("symbols: a symbol")
            s["s"] += 2
        s["last"] = c.point

    def accents(self, c):
        if not c.is_("ALPHABETIC"):
            return self.hit("accents: no letter, not fed")
        self.ac["n"] += 1
        if c.is_("ACCENTUATED"):
            self.hit("accents: accented")
            self.ac["a"] += 1
        else:
            self.hit("accents: plain")

    def unprintable(self, c):
        if c.is_("UNPRINTABLE"):
            self.hit("unprintable: unprintable")
            self.un["u"] += 1
        else:
            self.hit("unprintable: printable")
        self.un["n"] += 1

    def ranges(self, c):
        s, hit = self.ra, self.hit
        if c.is_("UNPRINTABLE"):
            return hit("ranges: unprintable, not fed" + ("" if s["last"] is None else ", with a last character"))
        s["n"] += 1
        forgets = [n for n in ("WHITESPACE", "PUNCTUATION", "COMMON_SAFE") if c.is_(n)]
        if forgets:
            hit("ranges: forgets by " + (forgets[0] + " alone" if len(forgets) == 1 else "several"))
            s["last"] = None
            return
        if s["last"] is None:
            hit("ranges: no last character")
        elif self.pairs[s["last"]][c.range]:
            hit("ranges: suspicious" + (" with range 0" if 0 in (s["last"], c.range) else ""))
            s["s"] += 1
        else:
            hit("ranges: not suspicious")
        s["last"] = c.range

    def doubled(self, c):
        s, hit = self.du, self.hit
        if not (c.is_("ALPHABETIC") and c.is_("LATIN")):
            return hit("doubled: no Latin letter, not fed" + (", between accents" if s["last"] and s["last"].is_("ACCENTUATED") else ""))
        s["n"] += 1
        if s["last"] is None:
            hit("doubled: no last character")
        elif not c.is_("ACCENTUATED"):
            hit("doubled: plain")
        elif not s["last"].is_("ACCENTUATED"):
            hit("doubled: after a plain one")
        else:
            upper = c.is_("UPPERCASE") and s["last"].is_("UPPERCASE")
            same = c.base == s["last"].base
            hit(f"doubled: adds {upper + same}" + (" by case" if upper > same else " by base" if same > upper else ""))
            s["s"] += upper + same
        s["last"] = c

    def words(self, c):
        s, hit = self.we, self.hit
        if c.is_("ASCII_ALPHABETIC"):
            s["buf"].append(c)
            if c.is_("ACCENTUATED"):
                hit("words: an accented letter")
                s["accents"] += 1
            foreign = not c.is_("LATIN") or c.is_("ACCENTUATED")
            script = next((n for n in ("CJK", "HANGUL", "KATAKANA", "HIRAGANA", "THAI") if c.is_(n)), None)
            hit("words: a letter, " + ("not foreign" if not foreign else "foreign" if script is None else "foreign but " + script))
            s["watch"] |= foreign and script is None
            return
        if not s["buf"]:
            return hit("words: outside a word")
        if c.is_("WHITESPACE") or c.is_("PUNCTUATION") or c.is_("SEPARATOR"):
            return self.close(c)
        if c.is_("WEIRD_SAFE") or c.is_("ASCII_DIGIT"):
            hit("words: WEIRD_SAFE or a digit in a word")
        elif not c.is_("SYMBOL"):
            hit("words: another character in a word")
        else:
            hit("words: a symbol enters")
            s["bad"] = True
            s["buf"].append(c)

    def close(self, c):
        s, hit = self.we, self.hit
        size = len(s["buf"])
        hit("words: closed" + (" by a symbol" if c.is_("SYMBOL") and not c.is_("WEIRD_SAFE") and not c.is_("ASCII_DIGIT") else ""))
        s["words"] += 1
        s["n"] += size
        if size >= 4:
            if 50 * s["accents"] > 17 * size:
                hit("words: over 17/50 accents")
                s["bad"] = True
            elif 50 * s["accents"] == 17 * size:
                hit("words: 17/50 accents")
            last = s["buf"][-1]
            if last.is_("ACCENTUATED") and last.is_("UPPERCASE"):
                hit("words: ends in an accented capital" + ("" if last.is_("ASCII_ALPHABETIC") else ", a symbol"))
                s["long"] += 1
                s["bad"] = True
        elif s["accents"] or s["buf"][-1].is_("UPPERCASE"):
            hit("words: too short for the accents")
        if size >= 24 and s["watch"]:
            upper = sum(x.is_("UPPERCASE") for x in s["buf"])
            if upper > 0 and 10 * upper <= 3 * size:
                hit("words: camel case" + (", 3/10" if 10 * upper == 3 * size else ""))
            else:
                hit("words: foreign and long, " + ("no capital" if upper == 0 else "too many capitals"))
                s["long"] += 1
                s["bad"] = True
        elif s["watch"]:
            hit("words: foreign and short" + (", 23" if size == 23 else ""))
        elif size >= 24:
            hit("words: long and not foreign")
        if s["bad"]:
            hit("words: bad")
            s["badn"] += size
        else:
            hit("words: good")
        s.update(bad=False, watch=False, accents=0, buf=[])

    def stops(self, c):
        if c.point in (0x4E04, 0x4E05):
            self.hit(f"stops: U+{c.point:04X}" + (" with CJK" if c.is_("CJK") else " without CJK"))
            self.st["w"] += 1
        elif c.is_("CJK"):
            self.hit("stops: CJK")
            self.st["c"] += 1
        else:
            self.hit("stops: other")

    def archaic(self, c):
        s, hit = self.ar, self.hit
        if not (c.is_("ALPHABETIC") and c.is_("CASE_VARIABLE")):
            if s["since"] > 0:
                if s["since"] > 64:
                    hit("archaic: closes a long run" + (", 65" if s["since"] == 65 else ""))
                elif c.is_("ASCII_DIGIT"):
                    hit("archaic: a digit closes")
                elif s["ascii"]:
                    hit("archaic: closes ASCII")
                else:
                    hit("archaic: adds " + ("a run" if s["run"] else "nothing") + (", 64" if s["since"] == 64 else ""))
                    s["final"] += s["run"]
                s.update(run=0, since=0, last=None, buf=False, ascii=True)
                s["n"] += 1
                return
            hit("archaic: a first character without case" + ("" if c.is_("ASCII") else ", not ASCII"))
        if s["ascii"] and not c.is_("ASCII"):
            hit("archaic: no longer ASCII")
        s["ascii"] &= c.is_("ASCII")
        if s["last"] is not None:
            rises = c.is_("UPPERCASE") and s["last"].is_("LOWERCASE")
            falls = c.is_("LOWERCASE") and s["last"].is_("UPPERCASE")
            if rises or falls:
                hit("archaic: " + ("both ways" if rises and falls else "rises" if rises else "falls") + (", the second" if s["buf"] else ""))
                if s["buf"]:
                    s["run"] += 2
                s["buf"] = not s["buf"]
            else:
                hit("archaic: the same case" + (", after a change" if s["buf"] else ""))
                s["buf"] = False
        s["n"] += 1
        s["since"] += 1
        s["last"] = c

    def kept(self, name, n, d, p=0, q=1, enough=True):
        """n/d, or 0: with too little, over 0, or below p/q"""
        hit = self.hit
        if not enough:
            hit(f"{name}: too few" + (", though not 0" if n else ""))
        elif d == 0:
            hit(f"{name}: nothing to divide by")
        elif q * n < p * d:
            hit(f"{name}: below the cut-off" + (", though not 0" if n else ""))
        else:
            hit(f"{name}: kept" + (", at the cut-off" if p and q * n == p * d else ", not 0" if n else ", 0"))
            self.counts += [n, d, 0]
            return quotient(n, d)
        self.counts += [n, d, int(n > 0 and d > 0)]
        return 0.0

    def ratios(self):
        self.counts = []
        sy, ac, un, ra, du, we, st, ar = self.sy, self.ac, self.un, self.ra, self.du, self.we, self.st, self.ar
        return [
            self.kept("symbols' ratio", sy["p"] + sy["s"], sy["n"], 3, 10),
            self.kept("accents' ratio", ac["a"], ac["n"], 7, 20, ac["n"] >= 8),
            self.kept("unprintable's ratio", 8 * un["u"], un["n"]),
            self.kept("ranges' ratio", 2 * ra["s"], ra["n"], 1, 10),
            self.kept("doubled's ratio", 2 * du["s"], du["n"]),
            self.kept("words' ratio", we["badn"], we["n"], 0, 1, we["words"] > 10 or we["long"] > 0),
            self.kept("stops' ratio", st["w"], st["c"], 0, 1, st["c"] >= 16),
            self.kept("archaic's ratio", ar["final"], ar["n"]),
        ]


BRANCHES = """
symbols: unprintable, not fed | symbols: no last character | symbols: the last character again
symbols: the last character again, of those that count | symbols: COMMON_SAFE | symbols: punctuation | symbols: punctuation that is a symbol
symbols: a number | symbols: a number that is a symbol | symbols: neither | symbols: an emoticon | symbols: a symbol
accents: no letter, not fed | accents: accented | accents: plain | unprintable: unprintable | unprintable: printable
ranges: unprintable, not fed | ranges: unprintable, not fed, with a last character | ranges: forgets by WHITESPACE alone
ranges: forgets by PUNCTUATION alone | ranges: forgets by COMMON_SAFE alone | ranges: forgets by several | ranges: no last character
ranges: suspicious | ranges: suspicious with range 0 | ranges: not suspicious
doubled: no Latin letter, not fed | doubled: no Latin letter, not fed, between accents | doubled: no last character | doubled: plain
doubled: after a plain one | doubled: adds 0 | doubled: adds 1 by case | doubled: adds 1 by base | doubled: adds 2
words: an accented letter | words: a letter, not foreign | words: a letter, foreign | words: a letter, foreign but CJK
words: a letter, foreign but HANGUL | words: a letter, foreign but KATAKANA | words: a letter, foreign but HIRAGANA
words: a letter, foreign but THAI | words: outside a word | words: WEIRD_SAFE or a digit in a word | words: another character in a word
words: a symbol enters | words: closed | words: closed by a symbol | words: over 17/50 accents | words: 17/50 accents
words: ends in an accented capital | words: ends in an accented capital, a symbol | words: too short for the accents | words: camel case
words: camel case, 3/10 | words: foreign and long, no capital | words: foreign and long, too many capitals | words: foreign and short
words: foreign and short, 23 | words: long and not foreign | words: bad | words: good
stops: U+4E04 with CJK | stops: U+4E04 without CJK | stops: U+4E05 with CJK | stops: U+4E05 without CJK | stops: CJK | stops: other
archaic: closes a long run | archaic: closes a long run, 65 | archaic: a digit closes | archaic: closes ASCII | archaic: adds a run
archaic: adds a run, 64 | archaic: adds nothing | archaic: adds nothing, 64 | archaic: a first character without case
archaic: a first character without case, not ASCII | archaic: no longer ASCII | archaic: both ways | archaic: both ways, the second
archaic: rises | archaic: rises, the second | archaic: falls | archaic: falls, the second | archaic: the same case
archaic: the same case, after a change
symbols' ratio: nothing to divide by | symbols' ratio: below the cut-off | symbols' ratio: below the cut-off, though not 0
symbols' ratio: kept, at the cut-off | symbols' ratio: kept, not 0
accents' ratio: too few | accents' ratio: too few, though not 0 | accents' ratio: below the cut-off
accents' ratio: below the cut-off, though not 0 | accents' ratio: kept, at the cut-off | accents' ratio: kept, not 0
unprintable's ratio: nothing to divide by | unprintable's ratio: kept, 0 | unprintable's ratio: kept, not 0
ranges' ratio: nothing to divide by | ranges' ratio: below the cut-off | ranges' ratio: below the cut-off, though not 0
ranges' ratio: kept, at the cut-off | ranges' ratio: kept, not 0
doubled's ratio: nothing to divide by | doubled's ratio: kept, 0 | doubled's ratio: kept, not 0
words' ratio: too few | words' ratio: too few, though not 0 | words' ratio: kept, 0 | words' ratio: kept, not 0
stops' ratio: too few | stops' ratio: too few, though not 0 | stops' ratio: kept, 0 | stops' ratio: kept, not 0
archaic's ratio: nothing to divide by | archaic's ratio: kept, 0 | archaic's ratio: kept, not 0
"""
BRANCHES = [b.strip() for line in BRANCHES.strip().split("\n") for b in line.split("|")]

# A text is an alphabet, a list of letters, and the places of its characters in it.


def points(r, n):
    """n different code points past U+024F, no stop among them"""
    seen = []
    while len(seen) < n:
        p = 0x250 + r.below(0x10FE00 if r.below(4) == 0 else 0x4000)
        if p not in seen and not 0xD800 <= p <= 0xDFFF and p not in (0x4E04, 0x4E05) and p <= 0x10FFFF:
            seen.append(p)
    return seen


def some(r, names, one_in):
    return sum(F[n] for n in names.split() if r.below(one_in) == 0)


def drawn(r, words, n):
    """a text of n characters drawn from letters with these flag words"""
    ps = points(r, len(words))
    bases = [ps[0], ps[-1], 0]
    alphabet = [Letter(p, w, r.below(RANGES), r.of(bases)) for p, w in zip(ps, words)]
    return alphabet, [r.below(len(alphabet)) for _ in range(n)]


def extremes(r):
    words = [EVERY, 0, 0x1FFFFFF, 0xFE000000] + [EVERY ^ 1 << r.below(32) for _ in range(3)] + [1 << r.below(32) for _ in range(3)]
    return drawn(r, words, r.below(40))


def noise(one_in):
    return lambda r: drawn(r, [r.bits(32, one_in) for _ in range(2 + r.below(8))], r.below(40))


def leaning(always, sometimes, one_in, most):
    """a text of letters that all have `always` and each of `sometimes` once in `one_in`; the first one has nothing else"""
    def text(r):
        words = [flags(always)] + [flags(always) | some(r, sometimes, one_in) for _ in range(2 + r.below(7))]
        return drawn(r, words, r.below(most))
    return text


def doubled(r):
    words = [flags("ALPHABETIC LATIN") | some(r, "ACCENTUATED", 1 + r.below(2)) | some(r, "UPPERCASE", 2) for _ in range(2 + r.below(5))]
    return drawn(r, words + [some(r, "ALPHABETIC ACCENTUATED", 2), 0][: r.below(3)], r.below(40))


def stops(r):
    alphabet, text = drawn(r, [flags("CJK")] * 2 + [some(r, "CJK ALPHABETIC", 2)], 8 + r.below(40))
    alphabet += [Letter(0x4E04, some(r, "CJK UNPRINTABLE", 2)), Letter(0x4E05, some(r, "CJK UNPRINTABLE", 2))]
    return alphabet, [r.of([i, i, i, 3, 4]) for i in text]


def runs(r, letters, closers, lengths, most):
    """runs of letters, each with a closer after it, up to `most` characters"""
    alphabet, _ = drawn(r, letters + closers, 0)
    text = []
    while True:
        run = [r.below(len(letters)) for _ in range(r.of(lengths))]
        if len(text) + len(run) + 1 > most:
            return alphabet, text
        text += run + [len(letters) + r.below(len(closers))]


def words(r):
    plain = r.below(2)
    letters = [flags("ASCII_ALPHABETIC ALPHABETIC LATIN") | (0 if plain else some(r, "ACCENTUATED UPPERCASE", 3)) for _ in range(3)]
    letters += [flags("ASCII_ALPHABETIC") | some(r, "ACCENTUATED UPPERCASE LATIN CJK HANGUL KATAKANA HIRAGANA THAI", 6) for _ in range(r.below(3))]
    letters += [flags("SYMBOL") | some(r, "WEIRD_SAFE ASCII_DIGIT ACCENTUATED UPPERCASE", 3) for _ in range(r.below(3))]
    closers = [some(r, "SYMBOL WEIRD_SAFE ALPHABETIC", 3) | F[r.of(["WHITESPACE", "PUNCTUATION", "SEPARATOR"])] for _ in range(3)]
    return runs(r, letters, closers, r.of([[1, 2, 3, 4, 5], [1, 2, 3], [3, 4, 5, 23, 24, 25], [24, 30, 50]]), 40 + r.below(80))


def archaic(r):
    case = "ALPHABETIC CASE_VARIABLE "
    letters = [flags(case + "UPPERCASE"), flags(case + "LOWERCASE")] + [flags(case) | some(r, "UPPERCASE LOWERCASE ASCII", 2) for _ in range(r.below(3))]
    if r.below(4) == 0:
        letters = [w | flags("ASCII") for w in letters]
    closers = [some(r, "ASCII_DIGIT ASCII ALPHABETIC", 3), flags("WHITESPACE SEPARATOR ASCII"), flags("ASCII_DIGIT ASCII")]
    return runs(r, letters, closers, r.of([[1, 2, 3, 4, 5], [3, 4, 5, 6, 7, 8], [63, 64, 65, 66]]), 20 + r.below(100))


def natural(r):
    letter, case = flags("ASCII ASCII_ALPHABETIC ASCII_GRAPHIC ALPHABETIC LATIN CASE_VARIABLE"), flags("ALPHABETIC LATIN CASE_VARIABLE ACCENTUATED")
    letters = [letter | F["LOWERCASE"]] * 3 + [letter | F["UPPERCASE"], case | F["LOWERCASE"], case | F["UPPERCASE"]]
    letters += [flags("ASCII ASCII_GRAPHIC ASCII_DIGIT NUMERIC"), flags("ASCII ASCII_GRAPHIC SYMBOL")]
    closers = [flags("ASCII WHITESPACE SEPARATOR")] * 3 + [flags("ASCII ASCII_GRAPHIC PUNCTUATION COMMON_SAFE"), flags("ASCII ASCII_GRAPHIC PUNCTUATION SEPARATOR")]
    return runs(r, letters, closers, [1, 2, 3, 4, 5, 6, 7, 8], 20 + r.below(60))


KINDS = [
    extremes, noise(2), noise(6), noise(12), stops, doubled, words, words, archaic, archaic, natural,
    leaning("", "PUNCTUATION SYMBOL NUMERIC EMOTICON COMMON_SAFE UNPRINTABLE", 4, 30),
    leaning("ALPHABETIC", "ACCENTUATED LATIN", 3, 30),
    leaning("", "UNPRINTABLE WHITESPACE PUNCTUATION COMMON_SAFE", 8, 30),
]


def at_cut_offs(pairs):
    """the texts at the limits of plugins.rs, each just inside and just outside"""
    r = Random(1)
    letter = "ASCII_ALPHABETIC ALPHABETIC LATIN"

    def of(*parts):
        """parts: (flags, how many), every character a code point of its own, in range 1"""
        ws = [flags(names) for names, n in parts for _ in range(n)]
        return [Letter(p, w) for p, w in zip(points(r, len(ws)), ws)], list(range(len(ws)))

    def repeated(alphabet, *parts):
        ps = points(r, len(alphabet))
        return [Letter(p, flags(names)) for p, names in zip(ps, alphabet)], [i for i, n in parts for _ in range(n)]

    yield [], []
    for n in (10, 11):
        yield of(("PUNCTUATION", 3), ("", n - 3))
    for n in (20, 21):
        yield of(("SYMBOL", 3), ("", n - 3))
    for n in (7, 8):
        yield of(("ALPHABETIC ACCENTUATED", 7), ("ALPHABETIC", n - 7))
    for n in (20, 21):
        yield of(("ALPHABETIC ACCENTUATED", 7), ("ALPHABETIC", n - 7))
    a, b = next((a, b) for a in range(RANGES) for b in range(RANGES) if pairs[a][b])
    for n in (20, 21):
        alphabet, text = of(("", 2), ("COMMON_SAFE", n - 2))
        alphabet[0].range, alphabet[1].range = a, b
        yield alphabet, text
    for n in (15, 16):
        alphabet, text = of(("CJK", n))
        yield alphabet + [Letter(0x4E04, F["CJK"]), Letter(0x4E05, 0)], [n, n + 1, n, n + 1] + text
    for n in (10, 11):
        yield repeated([letter, "SYMBOL", "WHITESPACE"], *[(0, 1), (1, 1), (2, 1)] * n)
    foreign = "ASCII_ALPHABETIC ALPHABETIC"
    for n, accents in ((50, 17), (50, 18), (3, 2), (4, 1), (4, 2)):
        yield repeated([letter, letter + " ACCENTUATED", "SYMBOL", "WHITESPACE"], (1, accents), (0, n - accents), (3, 1), *[(0, 1), (3, 1)] * 11)
    for n, capitals in ((30, 9), (30, 10), (24, 0), (24, 1), (23, 0), (24, 24)):
        yield repeated([foreign, foreign + " UPPERCASE", "WHITESPACE"], (1, capitals), (0, n - capitals), (2, 1))
    cased = "ALPHABETIC CASE_VARIABLE "
    for n in (63, 64, 65):
        yield repeated([cased + "UPPERCASE", cased + "LOWERCASE", "WHITESPACE"], *[(i % 2, 1) for i in range(n)], (2, 1))
        yield repeated([cased + "UPPERCASE", cased + "LOWERCASE", "WHITESPACE"], (0, n), (2, 1))
    yield repeated([cased + "UPPERCASE", cased + "LOWERCASE", "WHITESPACE"], (0, 1), (1, 1), (0, 1), (2, 1))
    for n in range(32):
        yield [Letter(0x250, 1 << n), Letter(0x251, EVERY ^ 1 << n)], [0, 1, 0, 0, 1, 1, 0]


def asked(oracle, pairs, texts):
    """the oracle's answers: for each text its sum and eight ratios, as f32 bits, and of each detector numerator, denominator and mark"""
    table = bytearray(32768)
    for a in range(RANGES):
        for b in range(RANGES):
            table[(512 * a + b) // 8] |= pairs[a][b] << b % 8
    lines = []
    for alphabet, text in texts:
        lines += [f"set {x.point:X} {x.flags:X} {x.range} {x.base:X} 0" for x in alphabet]
        lines.append("alone " + (",".join(f"{alphabet[i].point:X}" for i in text) or "-"))
    with tempfile.NamedTemporaryFile() as f:
        f.write(table)
        f.flush()
        said = subprocess.run([oracle, "serve"], input="\n".join([f"pairs {f.name}"] + lines) + "\n", capture_output=True, text=True, check=True)
    answers = []
    for line in said.stdout.splitlines():
        words = line.split()
        ratios = [int(w, 16) for w in words[1:9]]
        answers.append([int(words[0], 16)] + ratios + shown(words[11:19], ratios))
    assert len(answers) == len(texts)
    return answers


def second_writing(pairs, alphabet, text, hit):
    s = Counted(pairs, hit)
    for i in text:
        s.feed(alphabet[i])
    ratios = s.ratios()
    total = ratios[0]
    for x in ratios[1:]:
        total = f32(total + x)
    return [struct.unpack("<I", struct.pack("<f", x))[0] for x in [total] + ratios] + s.counts


def case(pairs, alphabet, text, answer):
    body = struct.pack("<34I", *answer, len(alphabet))
    for x in alphabet:
        body += struct.pack("<4I", x.point, x.flags, x.range, x.base) + bytes(pairs[a][x.range] for a in range(RANGES))
    body += bytes(text)
    return struct.pack("<I", len(body)) + body


def main():
    r = Random(2463534242)
    pairs = [[int(r.below(3) == 0) for _ in range(RANGES)] for _ in range(RANGES)]
    pairs[0][1] = 1
    texts = list(at_cut_offs(pairs))
    while len(texts) < TEXTS:
        texts.append(KINDS[len(texts) % len(KINDS)](r))
    answers = asked(sys.argv[1], pairs, texts)
    taken = dict.fromkeys(BRANCHES, 0)
    for n, ((alphabet, text), answer) in enumerate(zip(texts, answers)):
        def hit(name):
            taken[name] = taken.get(name, 0) + 1
        mine = second_writing(pairs, alphabet, text, hit)
        if mine != answer:
            sys.exit(f"text {n}: the oracle says {answer}, the second writing {mine}")
    if "--branches" in sys.argv:
        for name, times in taken.items():
            print(f"{times:8} {name}{'' if name in BRANCHES else '   (not in BRANCHES)'}")
    if min(taken.values()) == 0:
        sys.exit("taken by no text: " + ", ".join(n for n, t in taken.items() if t == 0))
    if "--branches" not in sys.argv:
        sys.stdout.buffer.write(b"".join(case(pairs, a, t, x) for (a, t), x in zip(texts, answers)))


main()
