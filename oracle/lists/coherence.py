#!/usr/bin/env python3
# coherence.py ORACLE > crates/replay_coherence/stdin: rankings of languages. What is accepted is answered by the oracle (`oracle serve`, made
# from the crate at 1bcded52e1); what is refused, which the oracle never does, by a second writing of 01's causes in this script.
# Three kinds of tables: the crate's own, answered from the crate's own data and with its small of 32 (of the class table only the records that a
# text needs stand in the list); the same lent to the oracle, with other small and more U+0130; and drawn ones, with numbers in several records,
# marks, letters repeated, ranges up to 511, lower-case letters of another range. Texts in fourteen languages, mixed, and drawn by a record's
# popularity; U+0130 in Turkish words, alone, and as often as may be; thresholds at a score and the floats beside it; included numbers: none,
# the lone 0, one, several, repeated, 64; every cause of refusal and every two of them, U+0130 beside a table without U+0307 among them.
#
# A block has tables and the questions asked of them; before each block its size in bytes. In little-endian u32 words:
#   bytes of the class table, of the language table and of the pair table; the byte that fills the pair table, and how many of its bits are
#   flipped; how many questions; the class table and the language table, each filled up to whole words; the flipped bits, as 512a + b
# and for each question
#   threshold, small, included numbers, characters, characters written down, words of the work area, room for matches; the answer: number,
#   place, count; then the included numbers, the characters of which the text repeats, and for each match the language and the score
#   (floats as bits)
import os
import random
import struct
import subprocess
import sys
import tempfile

SEED = 11
TABLES = os.path.join(os.path.dirname(os.path.abspath(__file__)), "..", "..", "tables")
LONGEST_TEXT = 8192
RANGES = 512
PAIR_BYTES = 32768
CLASS_RECORD = 24
MOST_CLASSES = 8192
LANGUAGE_RECORD = 1032
MOST_LANGUAGES = 63
MOST_LETTERS = 256
MOST_INCLUDED = 64
WORK = 8  # words of the work area for a character (02 [4])
CRATES_SMALL = 32
DEFAULT = 0x3DCCCCCD  # f32 0.1
SUFFICIENT = 0x3F4CCCCD  # f32 0.8
NAN, INFINITY, MINUS = 0x7FC00000, 0x7F800000, 0x80000000
CHAR_ALPHABETIC = 1 << 24
ACCENTUATED = 1 << 14
BUILTIN_END = 0x250
DOTTED_I = 0x130
DOT_ABOVE = 0x307

SAMPLES = [
    "The signal at the north junction shows stop and the train waits for the line to clear before it moves on again. ",
    "Le sémaphore du poste nord est fermé; où est l'élève à l'hôtel? Noël, çà et là, le train attend la voie libre. ",
    "Das Signal am Nordbahnhof zeigt Halt, und der Zug wartet, bis die Strecke frei ist. Über Brücken fährt er später. ",
    "La señal del puesto norte está cerrada y el tren espera. Mañana habrá más niños en la estación de aquí. ",
    "Светофор у северного поста закрыт, поезд ждёт разрешения на движение и стоит у платформы до утра. ",
    "Το σήμα στη βόρεια διασταύρωση είναι κλειστό και το τρένο περιμένει στην πλατφόρμα μέχρι το πρωί. ",
    "北站信号机显示停车，列车等待许可。我们的人在这里有一个大的时间，他说中国的学生不能来，也要到上面看。",
    "北の信号機は停止です。カタカナとひらがな、漢字のある文をここに書いて、列車は許可を待っている。",
    "북쪽 신호기는 정지입니다. 열차가 기다립니다. 승강장에서 아침까지 기다려야 하는 사람들이 있습니다. ",
    "الإشارة الشمالية مغلقة والقطار ينتظر على الرصيف حتى الصباح من أجل الحركة في المحطة. ",
    "האות הצפוני סגור והרכבת ממתינה ברציף עד הבוקר כדי לנוע אל התחנה הבאה. ",
    "สัญญาณด้านเหนือปิดอยู่และรถไฟกำลังรออยู่ที่ชานชาลาจนถึงเช้า ",
    "İstanbul'dan İzmir'e giden tren İNİŞ İŞARETİ bekliyor; Iğdır, Diyarbakır ve İskenderun'da çiçekler açtı, şöför uyuyor. ",
    "उत्तरी सिग्नल बंद है और गाड़ी सुबह तक प्लेटफार्म पर प्रतीक्षा कर रही है। ",
]


class Oracle:
    def __init__(self, path, folder):
        self.p = subprocess.Popen([path, "serve"], stdin=subprocess.PIPE, stdout=subprocess.PIPE, text=True)
        self.folder = folder

    def tell(self, line):
        self.p.stdin.write(line + "\n")

    def ask(self, line):
        self.tell(line)
        self.p.stdin.flush()
        return self.p.stdout.readline().split()

    def lend(self, name, table):
        path = os.path.join(self.folder, name)
        with open(path, "wb") as f:
            f.write(table)
        self.tell("%s %s" % (name, path))
        self.ask("class 41")  # once this is answered, the file has been read

    def ranking(self, threshold, included, text):
        words = self.ask("coh %08X %s %s" % (threshold, listed("%d", included), listed("%X", text)))
        found = [(int(n), int(s, 16)) for n, s in (w.split(":") for w in words[1:])]
        assert int(words[0]) == len(found)
        return found


def listed(form, numbers):
    return ",".join(form % n for n in numbers) if numbers else "-"


def beside(bits, step):
    """The f32 just above (1) or below (-1) one that is not negative."""
    if bits == 0 and step < 0:
        return MINUS + 1
    return bits + step


def words(values):
    return struct.pack("<%dI" % len(values), *values)


def padded(table):
    return table + bytes(-len(table) % 4)


def period(text):
    """How many characters a long text repeats; all of them where it is short."""
    if len(text) < 1000:
        return len(text)
    return next(p for p in range(1, len(text) + 1) if text[p:] == text[:-p])


# ---- tables


def class_record(first, last, flags, number, base=0, lower=0, zero=0):
    return struct.pack("<IIIHHII", first, last, flags, number, zero, base, lower)


def class_records(table):
    return [struct.unpack_from("<IIIHHII", table, i) for i in range(0, len(table) // CLASS_RECORD * CLASS_RECORD, CLASS_RECORD)]


def language_record(number, marks, letters, count=None, rest=()):
    slots = list(letters) + list(rest)
    slots += [0] * (MOST_LETTERS - len(slots))
    return struct.pack("<IHH256I", number, len(letters) if count is None else count, marks, *slots)


def language_records(table):
    """Number, count, marks and the 256 slots of each whole record."""
    whole = len(table) // LANGUAGE_RECORD * LANGUAGE_RECORD
    fields = [struct.unpack_from("<IHH256I", table, i) for i in range(0, whole, LANGUAGE_RECORD)]
    return [(f[0], f[1], f[2], f[3:]) for f in fields]


class Pairs:
    """A pair table as a byte that fills it and the bits that are flipped; of a length that may be wrong."""

    def __init__(self, fill, flipped, size=PAIR_BYTES):
        self.fill, self.flipped, self.size = fill, flipped, size

    def table(self):
        table = bytearray([self.fill]) * self.size
        for k in self.flipped:
            table[k // 8] ^= 1 << k % 8
        return bytes(table)


class Block:
    """Tables and the questions asked of them."""

    def __init__(self, classes, languages, pairs):
        self.classes, self.languages, self.pairs = classes, languages, pairs
        self.questions = []

    def put(self, threshold, small, included, text, answer, work=None, room=None):
        number, place, found = answer
        written = text[: period(text)]
        work = WORK * len(text) if work is None else work
        room = len(self.languages) // LANGUAGE_RECORD if room is None else room
        head = [threshold, small, len(included), len(text), len(written), work, room, number, place, len(found)]
        self.questions.append(words(head + list(included) + written + [x for m in found for x in m]))

    def bytes(self):
        flipped = self.pairs.flipped
        head = [len(self.classes), len(self.languages), self.pairs.size, self.pairs.fill, len(flipped), len(self.questions)]
        return words(head) + padded(self.classes) + padded(self.languages) + words(flipped) + b"".join(self.questions)


# ---- 01's causes, a second time


def scalar(c):
    return c <= 0x10FFFF and not 0xD800 <= c <= 0xDFFF


def bad_class(table):
    """Refusal 5's place, or None. Flags are not drawn at fault here: those of the list have bits 14 and 24 alone."""
    if len(table) % CLASS_RECORD or len(table) // CLASS_RECORD > MOST_CLASSES:
        return 0
    before = BUILTIN_END - 1
    for i, (first, last, flags, number, zero, base, lower) in enumerate(class_records(table)):
        good = before < first <= last <= 0x10FFFF and (last < 0xD800 or first > 0xDFFF)
        if not (good and number < RANGES and zero == 0 and scalar(base) and scalar(lower) and flags | CHAR_ALPHABETIC | ACCENTUATED == CHAR_ALPHABETIC | ACCENTUATED):
            return i
        before = last
    return None


def bad_language(table):
    """Refusal 8's place, or None."""
    if len(table) % LANGUAGE_RECORD or len(table) // LANGUAGE_RECORD > MOST_LANGUAGES:
        return 0
    for i, (number, count, marks, slots) in enumerate(language_records(table)):
        good = number and 1 <= count <= MOST_LETTERS and marks <= 3
        if not (good and all(map(scalar, slots[:count])) and not any(slots[count:])):
            return i
    return None


def bad_included(included, languages):
    """Refusal 9's place, or None."""
    if len(included) > MOST_INCLUDED:
        return 0
    if included == [0]:
        return None
    numbers = {record[0] for record in language_records(languages)}
    return next((i for i, n in enumerate(included) if n not in numbers), None)


def unclassed(text, classes, builtin):
    """Refusal 6's place, or None. builtin: the class of a code point below U+0250 as (flags, range, lower)."""
    records = class_records(classes)

    def class_of(c):
        if c < BUILTIN_END:
            return builtin(c)
        return next(((r[2], r[3], r[6]) for r in records if r[0] <= c <= r[1]), None)

    for i, c in enumerate(text):
        found = class_of(c)
        if found is None:
            return i
        flags, number, lower = found
        taken = flags & CHAR_ALPHABETIC and number
        if taken and any(class_of(x) is None for x in [lower or c] + [DOT_ABOVE] * (c == DOTTED_I)):
            return i
    return None


def refusal(block, threshold, included, text, work, room, builtin):
    """01's causes in the order of coherence: 1, 4, 5, 7, 8, 9, 3, 6."""
    if len(text) > LONGEST_TEXT:
        return 1, 0
    if threshold % MINUS >= INFINITY:
        return 4, 0
    for number, place in (5, bad_class(block.classes)), (7, None if block.pairs.size == PAIR_BYTES else 0), (8, bad_language(block.languages)):
        if place is not None:
            return number, place
    place = bad_included(included, block.languages)
    if place is not None:
        return 9, place
    if work < WORK * len(text) or room < len(block.languages) // LANGUAGE_RECORD:
        return 3, 0
    place = unclassed(text, block.classes, builtin)
    return None if place is None else (6, place)


# ---- texts and what is asked of them


def by_popularity(draw, letters, n):
    """So many letters, the first ones most often; now and then in just that order."""
    if draw.random() < 0.3:
        rounds = [letters[j] for i in range(len(letters)) for j in range(len(letters) - i)]
        return (rounds * (n // len(rounds) + 1))[:n]
    return [letters[min(draw.randrange(len(letters)), draw.randrange(len(letters)))] for _ in range(n)]


def included_of(draw, numbers):
    kind = draw.randrange(9)
    if kind < 4 or not numbers:
        return []
    if kind == 4:
        return [0]
    if kind == 5:
        return [draw.choice(numbers)]
    few = draw.sample(numbers, min(len(numbers), 3)) if draw.random() < 0.5 else numbers
    return [draw.choice(few) for _ in range(MOST_INCLUDED if kind == 6 else draw.randint(2, 8))]


def thresholds(draw, oracle, included, text):
    """The default, another, and those at and beside a score."""
    found = [DEFAULT, draw.choice([0, MINUS, 1, SUFFICIENT, SUFFICIENT + 1, 0x3F800000, 0x3F800001, 0xBF800000, 0x7F7FFFFF, 0xFF7FFFFF])]
    scores = [s for _, s in oracle.ranking(0xBF800000, included, text)]
    if scores:
        score = draw.choice(scores)
        found += [score, beside(score, 1), beside(score, -1)]
    return draw.sample(found, 2)


def ask(draw, oracle, block, small, included, text):
    for threshold in thresholds(draw, oracle, included, text):
        more, room = draw.choice([0, 0, 1, 7]), len(block.languages) // LANGUAGE_RECORD + draw.choice([0, 0, 1, 5])
        block.put(threshold, small, included, text, (0, 0, oracle.ranking(threshold, included, text)), WORK * len(text) + more, room)


# ---- the crate's tables


def crates_texts(draw, letters):
    def piece(n):
        if draw.random() < 0.5:
            return by_popularity(draw, draw.choice(letters), n)
        sample = draw.choice(SAMPLES)
        at = draw.randrange(len(sample))
        return [ord(c) for c in (sample * (n // len(sample) + 2))[at : at + n]]

    def upper(text):
        turned = [chr(c).upper() for c in text]
        return [ord(t) if len(t) == 1 and draw.random() < 0.2 else c for t, c in zip(turned, text)]

    for n in [0, 1, 31, 32, 33, 34] + [draw.randint(33, 120) for _ in range(34)] + [draw.randint(200, 500) for _ in range(3)]:
        yield upper(piece(n))
    for _ in range(16):
        yield upper([c for _ in range(draw.randint(2, 4)) for c in piece(draw.randint(20, 60))])


def crates_block(draw, oracle, texts, pairs):
    """The records that the texts need, their pairs of ranges, and every language."""
    oracle.tell("reset")
    points = sorted({c for text in texts for c in text} | {DOTTED_I, DOT_ABOVE})
    said = {c: oracle.ask("class %X" % c) for c in points}
    points = sorted(set(points) | {int(k[3], 16) for k in said.values()} - {0})
    with open(os.path.join(TABLES, "classes.bin"), "rb") as f:
        records = class_records(f.read())
    needed = [r for r in records if any(r[0] <= c <= r[1] for c in points)]
    classes = b"".join(struct.pack("<IIIHHII", *r) for r in needed)
    used = sorted({int(k[1]) for k in said.values()} - {0})
    flipped = [a * RANGES + b for a in used for b in used if pairs[(a * RANGES + b) // 8] >> (a * RANGES + b) % 8 & 1]
    with open(os.path.join(TABLES, "languages.bin"), "rb") as f:
        return Block(classes, f.read(), Pairs(0, flipped))


def crates_own(draw, oracle, pairs):
    with open(os.path.join(TABLES, "languages.bin"), "rb") as f:
        records = language_records(f.read())
    letters = [list(r[3][: r[1]]) for r in records]
    numbers = [r[0] for r in records]
    texts = list(crates_texts(draw, letters))
    turkish = [t for t in texts if DOTTED_I in t]
    texts += [[DOTTED_I] * n for n in (1, 16, 17, 40)] + [[DOTTED_I, 0x20] * 20 + t for t in turkish[:4]]
    block = crates_block(draw, oracle, texts, pairs)
    for text in texts:
        ask(draw, oracle, block, CRATES_SMALL, included_of(draw, numbers), text)

    # the same lent to the oracle
    oracle.lend("classes", block.classes)
    oracle.lend("pairs", block.pairs.table())
    oracle.lend("languages", block.languages)
    for text in draw.sample(texts, 24):
        text = [DOTTED_I if c in (0x49, 0x69) and draw.random() < 0.5 else c for c in text]
        layers = oracle.ask("layers " + listed("%X", text))
        length = len(draw.choice(layers).split(",")) if layers else 0
        small = draw.choice([0, 1, 8, length, max(length, 1) - 1, length + 1, 0xFFFFFFFF])
        oracle.tell("small %d" % small)
        ask(draw, oracle, block, small, included_of(draw, numbers), text)
    return block


# ---- drawn tables


def drawn_classes(draw, ranges):
    """Records of letters and of others, with lower-case letters that have a class; and the letters that a text may have, with what each is lowered to."""
    records, at = [], draw.choice([0x250, 0x3000, 0x10000])
    for _ in range(draw.randint(1, 12)):
        first = at + draw.randrange(5)
        last = first + draw.choice([0, 0, 3, 20])
        at = last + 1
        flags = (CHAR_ALPHABETIC if draw.random() < 0.85 else 0) | (ACCENTUATED if draw.random() < 0.2 else 0)
        records.append([first, last, flags, draw.choice(ranges), 0])
    points = [c for r in records for c in range(r[0], r[1] + 1)] + list(range(0x61, 0x7B)) + [0xE9, 0x100]
    for r in records:
        r[4] = draw.choice([0, 0, 0, draw.choice(points)])
    letters = {c: r[4] or c for r in records if r[2] & CHAR_ALPHABETIC and r[3] for c in range(r[0], r[1] + 1)}
    letters.update({c: c for c in range(0x61, 0x7B)})
    table = b"".join(class_record(first, last, flags, number, 0, lower) for first, last, flags, number, lower in records)
    return table, letters, points


def near(draw, letters, others):
    letters = list(letters)
    for _ in range(draw.randrange(1 + len(letters))):
        at, other = draw.randrange(len(letters)), draw.randrange(len(letters))
        kind = draw.randrange(5)
        if kind == 0 and len(letters) > 1:
            del letters[at]
        elif kind == 1:
            letters[at] = draw.choice(others)
        elif kind == 2:
            letters.insert(at, letters[other])
        else:
            letters[at], letters[other] = letters[other], letters[at]
    return letters[:MOST_LETTERS]


def drawn(draw, oracle):
    ranges = [0] + draw.sample(range(1, RANGES), draw.choice([1, 3, 8]))
    classes, letters, points = drawn_classes(draw, ranges)
    alphabets = [draw.sample(sorted(set(letters.values())), draw.randint(1, min(24, len(set(letters.values()))))) for _ in range(3)]
    numbers = [draw.choice([draw.randint(1, 40), draw.randint(1, 0xFFFFFFFF)]) for _ in range(draw.randint(1, 4))]
    records = []
    for _ in range(draw.randint(1, 7)):
        chosen = near(draw, draw.choice(alphabets), points) if draw.random() < 0.7 else draw.choice(alphabets)
        number = draw.choice(numbers) if draw.random() < 0.6 else draw.randint(1, 0xFFFFFFFF)
        records.append(language_record(number, draw.randrange(4), chosen))
        numbers.append(number)
    languages = b"".join(records)
    numbers = [r[0] for r in language_records(languages)]
    used = sorted(set(ranges) - {0} | {2, 3, 4, 5})
    density = draw.choice([0.0, 0.3, 0.7, 1.0])
    dense = density > 0.5
    flipped = [a * RANGES + b for a in used for b in used if draw.random() < (1 - density if dense else density)]
    block = Block(classes, languages, Pairs(255 if dense else 0, flipped))
    oracle.tell("reset")
    oracle.lend("classes", block.classes)
    oracle.lend("pairs", block.pairs.table())
    oracle.lend("languages", block.languages)
    written = {}
    for c, lower in letters.items():
        written.setdefault(lower, []).append(c)
    for _ in range(5):
        text = [draw.choice(written[c]) for _ in range(draw.randint(1, 3)) for c in by_popularity(draw, draw.choice(alphabets), draw.randint(1, 60))]
        text = [c if draw.random() < 0.9 else draw.choice([0x20, 0x2E, 0x41, draw.choice(sorted(letters))]) for c in text]
        small = draw.choice([0, 0, 1, 5, 20])
        oracle.tell("small %d" % small)
        ask(draw, oracle, block, small, included_of(draw, numbers), text)
    return block


# ---- refusals


def refused(oracle):
    """Every cause in each of its kinds, and every two causes."""
    oracle.tell("reset")
    builtin_said = {}

    def builtin(c):
        if c not in builtin_said:
            flags, number, _, lower = oracle.ask("class %X" % c)
            builtin_said[c] = int(flags, 16), int(number), int(lower, 16)
        return builtin_said[c]

    good = class_record(0x3B1, 0x3B8, CHAR_ALPHABETIC, 7) + class_record(0x400, 0x41F, CHAR_ALPHABETIC, 8, lower=0x500)
    one = language_record(5, 3, [0x61, 0x62, 0x3B1])
    base = dict(text=[0x61, 0x62, 0x3B1, 0x20] * 4, threshold=DEFAULT, classes=good, size=PAIR_BYTES, languages=one, included=[], work=0, room=0)
    touching = class_record(0x3B1, 0x3B8, CHAR_ALPHABETIC, 7) + class_record(0x3B8, 0x3B9, 0, 7)
    kinds = {
        1: [dict(text=[0x61] * (LONGEST_TEXT + 1))],
        4: [dict(threshold=t) for t in (NAN, INFINITY, INFINITY + MINUS, NAN + MINUS)],
        5: [dict(classes=t) for t in (good[:-1], touching, good[:24] + class_record(0x400, 0x401, 0, 512), class_record(0x24F, 0x250, 0, 1))],
        7: [dict(size=n) for n in (0, PAIR_BYTES - 1, PAIR_BYTES + 1)],
        8: [
            dict(languages=t)
            for t in (
                one[:-1],
                one + language_record(0, 0, [0x61]),
                language_record(5, 4, [0x61]),
                one + one + language_record(5, 0, []),
                language_record(5, 0, [0x61], count=257),
                one + language_record(6, 0, [0x61, 0xD800]),
                language_record(6, 0, [0x110000]),
                one + language_record(6, 0, [0x61], rest=[0] * 254 + [1]),
            )
        ],
        9: [dict(included=i) for i in ([6], [5, 0], [0, 0], [0, 5], [5] * 64 + [5], [0] * 65, [5] * 63 + [6])],
        3: [dict(work=-1), dict(room=-1), dict(work=-64, room=-1)],
        6: [
            dict(text=t)
            for t in ([0x61, 0xD800], [0x110000], [0x62] * 40 + [0xFFFFFFFF], [0x61, 0x410, 0xDFFF], [0x3B9], [0x61, 0x181], [0x61, 0x69, DOTTED_I], [DOTTED_I])
        ],
    }
    blocks = {}

    def put(**changes):
        at = dict(base, **changes)
        key = at["classes"], at["languages"], at["size"]
        block = blocks.setdefault(key, Block(at["classes"], at["languages"], Pairs(0, [], at["size"])))
        work = max(0, WORK * len(at["text"]) + at["work"])
        room = max(0, len(at["languages"]) // LANGUAGE_RECORD + at["room"])
        why = refusal(block, at["threshold"], at["included"], at["text"], work, room, builtin)
        assert why is not None, changes
        block.put(at["threshold"], 0, at["included"], at["text"], (why[0], why[1], []), work, room)

    for cause, some in kinds.items():
        for change in some:
            put(**change)
        for other in kinds:
            if other != cause and not (set(kinds[cause][0]) & set(kinds[other][0])):
                # each kind of one with a kind of the other
                for i, change in enumerate(some):
                    put(**change, **kinds[other][i % len(kinds[other])])
    put(text=[0x61, 0xD800] * (LONGEST_TEXT // 2 + 1))  # 1 and 6
    put(languages=one * (MOST_LANGUAGES + 1))
    put(classes=b"", text=[DOTTED_I] * 3)
    put(classes=class_record(DOT_ABOVE - 1, DOT_ABOVE - 1, 0, 0) + class_record(DOT_ABOVE + 1, DOT_ABOVE + 1, 0, 0), text=[0x61, DOTTED_I, 0xD800])
    return list(blocks.values())


def longest(oracle):
    """As many characters as may be, and as many records."""
    block = Block(b"", b"".join(language_record(n, 2, [0x61, 0x62, 0x61 + n % 26]) for n in range(MOST_LANGUAGES, 0, -1)), Pairs(0, []))
    oracle.tell("reset")
    oracle.lend("classes", block.classes)
    oracle.lend("pairs", block.pairs.table())
    oracle.lend("languages", block.languages)
    oracle.tell("small %d" % (LONGEST_TEXT - 1))
    text = [0x61, 0x62, 0x63, 0x61] * (LONGEST_TEXT // 4)
    for included in [], [0], [7, 7, 7, 9]:
        for threshold in DEFAULT, 0:
            block.put(threshold, LONGEST_TEXT - 1, included, text, (0, 0, oracle.ranking(threshold, included, text)))
    return block


def longest_dotted(oracle):
    """U+0130 as often as may be, alone and by turns; U+0307 in a range of its own or none, accentuated or not. `small` at the letters, both counted."""
    marks = {0: [0x69, DOT_ABOVE], 1: [DOT_ABOVE, 0x69, 0x61], 2: [0x69], 3: [0x61, 0x69, DOT_ABOVE]}
    languages = b"".join(language_record(n + 1, n, letters) for n, letters in marks.items())
    blocks = []
    for flags, number in (0, 0), (ACCENTUATED, 0), (CHAR_ALPHABETIC, 9), (CHAR_ALPHABETIC | ACCENTUATED, 4):
        block = Block(class_record(DOT_ABOVE, DOT_ABOVE, flags, number), languages, Pairs(0, []))
        oracle.tell("reset")
        oracle.lend("classes", block.classes)
        oracle.lend("pairs", block.pairs.table())
        oracle.lend("languages", block.languages)
        for n in 1, 2, 5, LONGEST_TEXT:
            for text in [DOTTED_I] * n, ([DOTTED_I, 0x61, DOT_ABOVE, 0x49] * n)[:n]:
                letters = sum(len(layer.split(",")) for layer in oracle.ask("layers " + listed("%X", text)))
                for small in 0, letters - 1, letters, n:
                    oracle.tell("small %d" % small)
                    block.put(DEFAULT, small, [], text, (0, 0, oracle.ranking(DEFAULT, [], text)))
        blocks.append(block)
    return blocks


def main():
    draw = random.Random(SEED)
    with open(os.path.join(TABLES, "pairs.bin"), "rb") as f:
        pairs = f.read()
    with tempfile.TemporaryDirectory() as folder:
        oracle = Oracle(sys.argv[1], folder)
        blocks = [crates_own(draw, oracle, pairs)]
        blocks += [drawn(draw, oracle) for _ in range(40)]
        blocks += refused(oracle)
        blocks.append(longest(oracle))
        blocks += longest_dotted(oracle)
    out = sys.stdout.buffer
    for block in blocks:
        whole = block.bytes()
        out.write(struct.pack("<I", len(whole)) + whole)
    questions = sum(len(b.questions) for b in blocks)
    sys.stderr.write("%d questions in %d blocks, the largest of %d bytes\n" % (questions, len(blocks), max(len(b.bytes()) for b in blocks)))


main()
