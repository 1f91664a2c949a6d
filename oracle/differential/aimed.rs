// Texts that stand at each cut-off, limit and period of 01 and on both sides of it, one aim a function. What they are made of is found by its
// flags in the table at hand, the crate's or a lent one.
use crate::random::Random;
use crate::tables::{BUILTIN_END, Record};
use oracle::open::crate_class;
use std::collections::BTreeMap;

const WHITESPACE: u32 = 1;
const UNPRINTABLE: u32 = 1 << 1;
const SYMBOL: u32 = 1 << 2;
const EMOTICON: u32 = 1 << 3;
const COMMON_SAFE: u32 = 1 << 4;
const WEIRD_SAFE: u32 = 1 << 5;
const PUNCTUATION: u32 = 1 << 6;
const SEPARATOR: u32 = 1 << 7;
const ASCII: u32 = 1 << 8;
const ASCII_ALPHABETIC: u32 = 1 << 9;
const LATIN: u32 = 1 << 12;
const ALPHABETIC: u32 = 1 << 13;
const ACCENTUATED: u32 = 1 << 14;
const CJK: u32 = 1 << 15;
const CASE_VARIABLE: u32 = 1 << 20;
const LOWERCASE: u32 = 1 << 21;
const UPPERCASE: u32 = 1 << 22;
const NUMERIC: u32 = 1 << 23;

const STOPS: [u32; 2] = [0x4E04, 0x4E05];
const BESIDE_STOPS: [u32; 2] = [0x4E03, 0x4E06];
const MOST_TRIES: usize = 40;

struct Known {
    point: u32,
    flags: u32,
    range: u16,
    base: u32,
}

// What texts are made of: the characters of a table by what their flags say, each list with one character at least.
pub struct Shelves {
    punctuation: Vec<u32>, // counted by the first detector
    symbols: Vec<u32>,     // counted twice by it
    uncounted: Vec<u32>,   // printable, and not counted by it
    accented: Vec<u32>,
    letters: Vec<u32>, // not accented
    unprintable: Vec<u32>,
    forgetting: Vec<u32>, // printable, after which the range detector knows of no character
    doubled: Vec<Vec<u32>>,
    upper_accents: Vec<u32>,
    in_words: Vec<u32>,
    ends: Vec<u32>, // of a word
    odd_ends: Vec<u32>,
    cjk: Vec<u32>,
    upper: Vec<u32>, // not ASCII
    lower: Vec<u32>,
    caseless: Vec<u32>,
    spans: Vec<(u32, u32)>, // of the records
    all: Vec<(u32, u16)>,
    pairs: Vec<u8>,
    stops: bool, // whether the table knows the stops
}

fn known(records: &[Record]) -> Vec<Known> {
    let builtin = (0..BUILTIN_END).map(|point| {
        let class = crate_class(char::from_u32(point).expect("a scalar value"));
        Known { point, flags: class.flags, range: class.range, base: class.base }
    });
    let lent = records.iter().flat_map(|r| {
        let edges = if r.first == r.last { vec![r.first] } else { vec![r.first, r.last] };
        edges.into_iter().map(|point| Known { point, flags: r.flags, range: r.range, base: r.base })
    });
    builtin.chain(lent).collect()
}

// Those with every flag of one set and none of the other.
fn those(all: &[Known], with: u32, without: u32) -> Vec<u32> {
    all.iter().filter(|k| k.flags & with == with && k.flags & without == 0).map(|k| k.point).collect()
}

// Accented Latin letters with the same base, two at least.
fn alike(all: &[Known]) -> Vec<Vec<u32>> {
    let mut bases: BTreeMap<u32, Vec<u32>> = BTreeMap::new();
    let accented = LATIN | ALPHABETIC | ACCENTUATED;
    for k in all.iter().filter(|k| k.flags & accented == accented) {
        bases.entry(if k.base == 0 { k.point } else { k.base }).or_default().push(k.point);
    }
    bases.into_values().filter(|points| points.len() > 1).collect()
}

impl Shelves {
    pub fn new(records: &[Record], pairs: &[u8]) -> Shelves {
        let all = known(records);
        let those = |with, without| those(&all, with, without);
        let forgets = |k: &&Known| k.flags & UNPRINTABLE == 0 && k.flags & (WHITESPACE | PUNCTUATION | COMMON_SAFE) != 0;
        let counted =
            |k: &Known| k.flags & COMMON_SAFE == 0 && (k.flags & PUNCTUATION != 0 || k.flags & (NUMERIC | SYMBOL | EMOTICON) == SYMBOL);
        let ends = |k: &&Known| k.flags & ASCII_ALPHABETIC == 0 && k.flags & (WHITESPACE | PUNCTUATION | SEPARATOR) != 0;
        Shelves {
            punctuation: those(PUNCTUATION, UNPRINTABLE | COMMON_SAFE),
            symbols: those(SYMBOL, UNPRINTABLE | COMMON_SAFE | PUNCTUATION | NUMERIC | EMOTICON),
            uncounted: all.iter().filter(|k| k.flags & UNPRINTABLE == 0 && !counted(k)).map(|k| k.point).collect(),
            accented: those(ALPHABETIC | ACCENTUATED, 0),
            letters: those(ALPHABETIC, ACCENTUATED),
            unprintable: those(UNPRINTABLE, 0),
            forgetting: all.iter().filter(forgets).map(|k| k.point).collect(),
            doubled: alike(&all),
            upper_accents: those(ALPHABETIC | LATIN | ACCENTUATED | UPPERCASE, 0),
            in_words: those(SYMBOL, ASCII_ALPHABETIC | WHITESPACE | PUNCTUATION | SEPARATOR),
            ends: all.iter().filter(ends).map(|k| k.point).collect(),
            odd_ends: {
                let mut odd = those(SYMBOL | ACCENTUATED, WEIRD_SAFE | WHITESPACE | PUNCTUATION | SEPARATOR);
                odd.extend(those(SYMBOL | UPPERCASE, WEIRD_SAFE | WHITESPACE | PUNCTUATION | SEPARATOR));
                odd
            },
            cjk: those(CJK, 0).into_iter().filter(|p| !STOPS.contains(p)).collect(),
            upper: those(UPPERCASE | CASE_VARIABLE | ALPHABETIC, ASCII),
            lower: those(LOWERCASE | CASE_VARIABLE | ALPHABETIC, ASCII),
            caseless: those(ALPHABETIC, CASE_VARIABLE),
            stops: STOPS.iter().chain(&BESIDE_STOPS).all(|p| records.iter().any(|r| r.first <= *p && *p <= r.last)),
            spans: records.iter().map(|r| (r.first, r.last)).collect(),
            all: all.iter().filter(|k| k.flags & UNPRINTABLE == 0 && !forgets(k)).map(|k| (k.point, k.range)).collect(),
            pairs: pairs.to_vec(),
        }
    }

    fn suspicious(&self, a: u16, b: u16) -> bool {
        let bit = 512 * a as usize + b as usize;
        self.pairs[bit / 8] >> (bit % 8) & 1 == 1
    }

    // Two characters of which the second's range after the first's is suspicious, or is not.
    fn neighbours(&self, r: &mut Random, suspicious: bool) -> Option<[u32; 2]> {
        (0..MOST_TRIES)
            .map(|_| [*r.pick(&self.all), *r.pick(&self.all)])
            .find(|[a, b]| self.suspicious(a.1, b.1) == suspicious)
            .map(|two| two.map(|k| k.0))
    }
}

fn one(r: &mut Random, shelf: &[u32], otherwise: u32) -> u32 {
    if shelf.is_empty() { otherwise } else { *r.pick(shelf) }
}

fn some(r: &mut Random, n: usize, shelf: &[u32], otherwise: u32) -> Vec<u32> {
    (0..n).map(|_| one(r, shelf, otherwise)).collect()
}

fn shuffled(r: &mut Random, mut parts: Vec<Vec<u32>>) -> Vec<u32> {
    for i in (1..parts.len()).rev() {
        parts.swap(i, r.below(i + 1));
    }
    parts.concat()
}

fn singly(points: Vec<u32>) -> Vec<Vec<u32>> {
    points.into_iter().map(|p| vec![p]).collect()
}

// How many of n make the part over/under of it, one fewer and one more; 0 at the least and n at the most.
fn about(r: &mut Random, n: usize, over: usize, under: usize) -> usize {
    ((n * over).div_ceil(under) + r.below(3)).saturating_sub(1).min(n)
}

// A denominator: a multiple of the cut-off's own half of the time, so that the part is met exactly.
fn whole(r: &mut Random, unit: usize) -> usize {
    if r.below(2) == 0 { unit * (1 + r.below(6)) } else { 1 + r.below(6 * unit) }
}

// 3/10 of the printable characters, the newline among them; doubled characters, unprintable ones between them.
fn symbols(r: &mut Random, s: &Shelves) -> Vec<u32> {
    let n = whole(r, 10);
    let goal = about(r, n, 3, 10);
    let twice = r.below(goal / 2 + 1);
    let mut text = some(r, twice, &s.symbols, 0x24);
    text.extend(some(r, goal - 2 * twice, &s.punctuation, 0x23));
    let others = (n - 1).saturating_sub(text.len());
    text.extend(some(r, others, &s.uncounted, 0x61));
    let mut text = shuffled(r, singly(text));
    if r.below(3) == 0 && !text.is_empty() {
        let at = r.below(text.len());
        let same = text[at];
        text.insert(at, same);
        if r.below(2) == 0 {
            text.insert(at + 1, one(r, &s.unprintable, 1));
        }
    }
    text
}

// 7/20 of the letters, and 6 to 9 of them.
fn accents(r: &mut Random, s: &Shelves) -> Vec<u32> {
    let n = if r.below(2) == 0 { 6 + r.below(4) } else { whole(r, 20) };
    let k = if r.below(4) == 0 { n } else { about(r, n, 7, 20) };
    let mut parts = singly(some(r, k, &s.accented, 0xE9));
    parts.extend(singly(some(r, n - k, &s.letters, 0x65)));
    let others = r.below(4);
    parts.extend(singly(some(r, others, &s.forgetting, 0x20)));
    shuffled(r, parts)
}

fn unprintables(r: &mut Random, s: &Shelves) -> Vec<u32> {
    let (n, k) = (r.below(20), r.below(4));
    let mut parts = singly(some(r, n, &s.uncounted, 0x61));
    parts.extend(singly(some(r, k, &s.unprintable, 1)));
    shuffled(r, parts)
}

// 1/20 of the printable characters; pairs with something between them that is forgotten over, or is not.
fn ranges(r: &mut Random, s: &Shelves) -> Vec<u32> {
    let n = whole(r, 20);
    let k = about(r, n, 1, 20);
    let mut parts = vec![];
    for _ in 0..k {
        let Some([a, b]) = s.neighbours(r, true) else { continue };
        parts.push(vec![one(r, &s.forgetting, 0x20), a, b]);
    }
    for _ in 0..r.below(3) {
        let between = [one(r, &s.forgetting, 0x20), one(r, &s.unprintable, 1)][r.below(2)];
        let suspicious = r.below(2) == 0;
        let Some([a, b]) = s.neighbours(r, suspicious) else { continue };
        parts.push(vec![one(r, &s.forgetting, 0x20), a, between, b]);
    }
    let used: usize = parts.iter().map(Vec::len).sum();
    let others = (n - 1).saturating_sub(used);
    parts.extend(singly(some(r, others, &s.forgetting, 0x20)));
    shuffled(r, parts)
}

fn doubled(r: &mut Random, s: &Shelves) -> Vec<u32> {
    let mut text = vec![];
    for _ in 0..1 + r.below(5) {
        match r.below(8) {
            0..=2 if !s.doubled.is_empty() => {
                let letters = r.pick(&s.doubled);
                text.extend([*r.pick(letters), *r.pick(letters)]);
            }
            3 => text.extend(some(r, 2, &s.upper_accents, 0xC9)),
            4 => text.extend(some(r, 2, &s.accented, 0xE9)),
            5 => text.push(one(r, &s.letters, 0x65)),
            6 => text.push(one(r, &s.forgetting, 0x20)),
            _ => text.push(one(r, &s.caseless, 0x20)),
        }
    }
    text
}

fn ascii_letter(r: &mut Random) -> u32 {
    [0x61, 0x41][(r.below(6) == 0) as usize] + r.below(26) as u32
}

// 9 to 12 words, or one, of 1 to 6 letters or of 23 to 25, with symbols and other letters in them, before them and behind them.
fn words(r: &mut Random, s: &Shelves) -> Vec<u32> {
    let mut text = vec![];
    let plain = r.below(3) > 0;
    for _ in 0..[9, 10, 11, 12, 1, 2][r.below(6)] {
        let n = if r.below(12) == 0 { 23 + r.below(3) } else { 1 + r.below(6) };
        let mut word: Vec<u32> = (0..n).map(|_| ascii_letter(r)).collect();
        for _ in 0..r.below(3) {
            let at = if r.below(2) == 0 { word.len() } else { r.below(word.len() + 1) };
            match r.below(8) {
                0 => word.insert(at, one(r, &s.caseless, 0x61)),
                1 => word.insert(at, one(r, &s.accented, 0xE9)),
                2 => word.insert(at, *r.pick(&[0x30, 0x39, 0x3C, 0x3E, 0x3D, 0x7E, 0x7C])),
                3 | 4 => word.insert(at, one(r, &s.in_words, 0x24)),
                _ if plain => {}
                _ => word.insert(at, one(r, &s.symbols, 0x24)),
            }
        }
        if r.below(4) == 0 {
            word.push(one(r, &s.odd_ends, 0x24));
        }
        text.extend(word);
        text.push(if r.below(3) == 0 { one(r, &s.ends, 0x20) } else { 0x20 });
    }
    text
}

// One word of 1 to 5 letters and a last character that is a symbol with an accent or a case, where there is one.
fn odd_words(r: &mut Random, s: &Shelves) -> Vec<u32> {
    let mut text: Vec<u32> = (0..1 + r.below(5)).map(|_| ascii_letter(r)).collect();
    text.push(one(r, &s.odd_ends, 0x24));
    text.extend(some(r, 1, &s.ends, 0x20));
    text
}

// 14 to 18 CJK characters with up to five stops among them.
fn stops(r: &mut Random, s: &Shelves) -> Vec<u32> {
    let (n, k) = (14 + r.below(5), r.below(6));
    let mut parts = singly(some(r, n, &s.cjk, 0x61));
    if s.stops {
        let at = r.below(3);
        parts.extend((0..k).map(|_| vec![STOPS[if at < 2 { at } else { r.below(2) }]]));
        let others = r.below(2);
        parts.extend(singly(some(r, others, &BESIDE_STOPS, 0)));
    }
    let others = r.below(3);
    parts.extend(singly(some(r, others, &s.caseless, 0x20)));
    shuffled(r, parts)
}

// Runs of letters that change case: 62 to 67 of them, or a few, with ASCII ones or without, ended in each way.
fn archaic(r: &mut Random, s: &Shelves) -> Vec<u32> {
    let leading = (r.below(4) == 0) as usize;
    let mut text = some(r, leading, &s.forgetting, 0x20);
    for _ in 0..1 + r.below(3) {
        let n = if r.below(2) == 0 { 62 + r.below(6) } else { 1 + r.below(7) };
        let ascii = r.below(4);
        let steady = r.below(2) == 0;
        let mut up = r.below(2) == 0;
        for _ in 0..n {
            let own = ascii == 0 || (ascii == 1 && r.below(4) > 0);
            text.push(match (own, up) {
                (true, true) => 0x41 + r.below(26) as u32,
                (true, false) => 0x61 + r.below(26) as u32,
                (false, true) => one(r, &s.upper, 0xC9),
                (false, false) => one(r, &s.lower, 0xE9),
            });
            up ^= steady || r.below(3) > 0;
        }
        match r.below(6) {
            0 => text.push(0x30 + r.below(10) as u32),
            1 => text.push(one(r, &s.caseless, 0x20)),
            2 => text.extend(some(r, 2, &s.forgetting, 0x20)),
            3 => text.extend([0x39, one(r, &s.lower, 0xE9)]),
            _ => text.push(one(r, &s.forgetting, 0x20)),
        }
    }
    text
}

// Code points of one kind: ASCII's lower-case letters, a space, punctuation, those of one record or of two beside each other, or the wrong stops and what stands beside them.
fn kind(r: &mut Random, s: &Shelves) -> Vec<u32> {
    let edges = |&(first, last): &(u32, u32)| vec![first, first.midpoint(last), last];
    match r.below(8) {
        0 | 1 => (0x61..=0x7A).collect(),
        2 => vec![0x20],
        3 => vec![one(r, &s.punctuation, 0x2E)],
        4 if s.stops => (0x4E02..=0x4E07).collect(),
        _ if s.spans.is_empty() => (0x41..=0x5A).collect(),
        5 => {
            let at = r.below(s.spans.len());
            s.spans[at..].iter().take(2).flat_map(edges).collect()
        }
        6 => vec![one(r, &s.accented, 0xE9), one(r, &s.letters, 0x61)],
        _ => edges(r.pick(&s.spans)),
    }
}

// Runs of one kind, of n characters in all. Each ends just before a checkpoint, at it or past it, or anywhere: the shortest period divides the others.
pub fn runs(r: &mut Random, s: &Shelves, n: usize) -> Vec<u32> {
    const PERIOD: usize = 32;
    let mut text = vec![];
    while text.len() < n {
        let left = PERIOD - text.len() % PERIOD;
        let m = match r.below(7) {
            0 => left - 1,
            1 => left,
            2 => left + 1,
            3 => left + PERIOD * r.below(5),
            4 => 1,
            _ => 1 + r.below(70),
        };
        let kind = kind(r, s);
        text.extend(some(r, m, &kind, 0x61));
    }
    text.truncate(n);
    text
}

type Aim = fn(&mut Random, &Shelves) -> Vec<u32>;
pub const AIMS: [Aim; 9] = [symbols, accents, unprintables, ranges, doubled, words, odd_words, stops, archaic];

// A text of n characters: several aims one after the other, and letters that change nothing behind them.
pub fn long(r: &mut Random, s: &Shelves, n: usize) -> Vec<u32> {
    let mut text = vec![];
    let quiet = r.below(n + 1);
    while text.len() < n {
        if text.len() < quiet { text.extend(r.pick(&AIMS)(r, s)) } else { text.extend([0x61, 0x62, 0x20]) }
    }
    text.truncate(n);
    text
}
