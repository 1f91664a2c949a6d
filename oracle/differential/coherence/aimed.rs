// Small tables and a text of their letters, at each limit of 01's layers and rankings: few ranges, of which any may be suspicious to any; letters
// whose counts are chosen, so that their order is; records that are near to that order, share just about a fifth of it, or have repeated letters.
use super::causes::{DOT_ABOVE, DOTTED_I};
use super::languages::Record;
use super::texts::shuffle;
use crate::random::Random;
use crate::tables::{self, PAIR_BYTES};

const ALPHABETIC: u32 = 1 << 13;
const ACCENTUATED: u32 = 1 << 14;
const CHAR_ALPHABETIC: u32 = 1 << 24;
const BLOCKS: u32 = 4;
const PLAIN: u32 = 36; // letters of a block, and behind them accented ones
const ACCENTED: u32 = 3;
const UNKNOWN: u32 = 0x2000; // letters of a language that no text has, in no record
const I_RANGE: u16 = 4; // the range of U+0130

// Of the first block: a letter whose lower case has no class, one that is not taken; then characters in no record.
pub const STRAYS: [u32; 4] = [0x3400 + 46, 0x3400 + 47, 0x3400 + 50, 0x3FFF];

pub struct World {
    pub classes: Vec<tables::Record>,
    pub pairs: Vec<u8>,
    pub languages: Vec<Record>,
    pub text: Vec<u32>,
}

fn block(k: u32) -> u32 {
    0x3400 + 64 * k
}

// Of each block: letters, accented letters, and characters that are lowered to one of them, to another block's, or are not taken. Before them
// U+0307, of any kind, or now and then not at all.
fn classes(r: &mut Random, ranges: &[u16]) -> Vec<tables::Record> {
    let mut all = vec![];
    if r.below(12) > 0 {
        let flags = *r.pick(&[0, ACCENTUATED, CHAR_ALPHABETIC, CHAR_ALPHABETIC | ALPHABETIC | ACCENTUATED]);
        let range = *r.pick(&[0, I_RANGE, ranges[0]]);
        all.push(tables::Record { first: DOT_ABOVE, last: DOT_ABOVE, flags, range, zero: 0, base: 0, lower: 0 });
    }
    for k in 0..BLOCKS {
        let (at, range) = (block(k), ranges[k as usize]);
        let next = block((k + 1) % BLOCKS);
        let mut put = |from: u32, n: u32, flags: u32, range: u16, lower: u32| {
            all.push(tables::Record { first: at + from, last: at + from + n - 1, flags, range, zero: 0, base: 0, lower });
        };
        put(0, PLAIN, CHAR_ALPHABETIC, range, 0);
        put(PLAIN, ACCENTED, CHAR_ALPHABETIC | ALPHABETIC | ACCENTUATED, range, 0);
        put(40, 1, CHAR_ALPHABETIC | ALPHABETIC, range, at);
        put(41, 1, CHAR_ALPHABETIC, range, at + PLAIN);
        put(42, 1, CHAR_ALPHABETIC | ACCENTUATED, range, at + 1);
        put(43, 1, CHAR_ALPHABETIC, range, next + 2);
        put(44, 1, ALPHABETIC, range, 0);
        put(45, 1, CHAR_ALPHABETIC, 0, 0);
        put(46, 1, CHAR_ALPHABETIC, range, UNKNOWN); // whose lower case has no class
        put(47, 1, ALPHABETIC, range, UNKNOWN);
        put(48, 1, CHAR_ALPHABETIC, range, at + 43); // lowered to what would itself be lowered
    }
    all
}

// How a letter is written, now and then otherwise than by itself.
fn written(r: &mut Random, letter: u32) -> u32 {
    let at = block((letter - block(0)) / 64);
    let before = block(((letter - block(0)) / 64 + BLOCKS - 1) % BLOCKS);
    match letter - at {
        _ if r.below(3) > 0 => letter,
        0 => at + 40,
        PLAIN => at + 41,
        1 => at + 42,
        2 => before + 43,
        _ => letter,
    }
}

fn pairs(r: &mut Random, ranges: &[u16]) -> Vec<u8> {
    let mut pairs = vec![0; PAIR_BYTES];
    let density = r.below(5);
    for (a, b) in ranges.iter().flat_map(|a| ranges.iter().map(move |b| (*a as usize, *b as usize))) {
        let suspicious = if a == b { r.below(12) == 0 } else { r.below(4) < density };
        if suspicious {
            pairs[(512 * a + b) / 8] |= 1 << ((512 * a + b) % 8);
        }
    }
    pairs
}

// Distinct letters of a block in some order.
fn order(r: &mut Random, k: u32) -> Vec<u32> {
    let most = if r.below(4) == 0 { PLAIN } else { PLAIN + ACCENTED };
    let mut letters: Vec<u32> = (block(k)..block(k) + most).collect();
    shuffle(r, &mut letters);
    let n = [1 + r.below(4), 1 + r.below(12), 1 + r.below(12), 1 + r.below(most as usize)][r.below(4)];
    letters.truncate(n);
    letters
}

// So many of each letter that their order by count is this one, but for ties.
fn counted(r: &mut Random, order: &[u32]) -> Vec<u32> {
    let tie = 1 + r.below(4) * r.below(2);
    let n = order.len().div_ceil(tie);
    order.iter().enumerate().flat_map(|(i, letter)| vec![*letter; n - i / tie]).collect()
}

fn unknown(n: usize) -> impl Iterator<Item = u32> {
    (0..n as u32).map(|i| UNKNOWN + i)
}

// Letters of a record for a layer with this order.
fn record(r: &mut Random, order: &[u32]) -> Vec<u32> {
    let a = order.len();
    let mut letters = order.to_vec();
    match r.below(9) {
        0 => {}
        1 => {
            for _ in 0..1 + r.below(4) {
                let (at, other) = (r.below(a), r.below(a));
                letters.swap(at, other);
            }
        }
        // a letter moved as far as Jaro's window, one less and one more
        2 => {
            letters.extend(unknown(r.below(5)));
            let window = (letters.len().max(a) / 2).saturating_sub(1);
            let by = (window + r.below(3)).saturating_sub(1);
            let from = r.below(letters.len());
            if from + by < letters.len() {
                letters.swap(from, from + by);
            }
        }
        // a fifth of the distinct letters shared, one fewer and one more; repeated ones are not distinct
        3 | 4 => {
            let distinct = [5, 10, 15, 20, 1 + r.below(40)][r.below(5)];
            let shared = (distinct.div_ceil(5) + r.below(3)).saturating_sub(1).min(a);
            letters.truncate(shared);
            letters.extend(unknown(distinct.saturating_sub(shared)));
            let repeated: Vec<u32> =
                (0..r.below(6)).map(|_| letters.get(r.below(letters.len().max(1))).copied().unwrap_or(UNKNOWN)).collect();
            letters.extend(repeated);
        }
        5 => {
            for _ in 0..1 + r.below(4) {
                let (at, from) = (r.below(letters.len() + 1), r.below(letters.len()));
                letters.insert(at, letters[from]);
            }
        }
        6 => letters.extend(unknown(1 + r.below(2 * a))),
        7 => letters.truncate(1 + r.below(a)),
        _ => {
            let fresh = unknown(r.below(30)).collect::<Vec<_>>();
            letters.splice(0..0, fresh).for_each(drop);
        }
    }
    if letters.is_empty() { vec![UNKNOWN] } else { letters }
}

impl World {
    pub fn new(r: &mut Random) -> World {
        let mut ranges = [9, 10, 300, 511];
        shuffle(r, &mut ranges);
        let orders: Vec<Vec<u32>> = (0..1 + r.below(BLOCKS as usize) as u32).map(|k| order(r, k)).collect();
        let mut text: Vec<u32> = orders.iter().flat_map(|order| counted(r, order)).collect();
        let mixed = r.below(3);
        if mixed > 0 {
            shuffle(r, &mut text);
        }
        text.iter_mut().for_each(|letter| *letter = if mixed == 1 { written(r, *letter) } else { *letter });
        for _ in 0..r.below(6) {
            let k = r.below(BLOCKS as usize) as u32;
            let other = *r.pick(&[0x20, 0x31, 0x61, 0x61, 0xE9, DOTTED_I, block(k) + 44, block(k) + 45, block(k) + 48]);
            let at = r.below(text.len() + 1);
            text.insert(at, other);
        }
        if r.below(60) == 0 {
            let at = r.below(text.len() + 1);
            text.insert(at, *r.pick(&STRAYS));
        }
        // U+0130 a few times more, and its letters in the records
        let dots = if r.below(3) == 0 { 1 + r.below(9) } else { 0 };
        for _ in 0..dots {
            let at = r.below(text.len() + 1);
            text.insert(at, DOTTED_I);
        }
        let unlike = r.below(2) == 0;
        let mut languages = vec![];
        for i in 0..1 + r.below(8) as u32 {
            let mut order = r.pick(&orders).clone();
            if r.below(6) == 0 {
                order.extend(r.pick(&orders));
            }
            let number = if unlike { 90 - 7 * i } else { 1 + r.below(4) as u32 };
            let mut letters = record(r, &order);
            for letter in if dots > 0 { &[0x69, DOT_ABOVE][..r.below(3)] } else { &[] } {
                let at = r.below(letters.len() + 1);
                letters.insert(at, *letter);
            }
            languages.push(Record { number, marks: [3, 3, r.below(4)][r.below(3)] as u16, letters });
        }
        let all = [&ranges[..], &[I_RANGE]].concat();
        World { classes: classes(r, &ranges), pairs: pairs(r, &all), languages, text }
    }
}

// Included numbers of the table: none, the lone 0, a few in any order and some of them twice, or one more or less than 64.
pub fn included(r: &mut Random, numbers: &[u32]) -> Vec<u32> {
    match r.below(12) {
        0..=5 => vec![],
        6 | 7 => vec![0],
        8 => vec![*r.pick(numbers); 63 + r.below(3)],
        _ => (0..1 + r.below(5)).map(|_| *r.pick(numbers)).collect(),
    }
}
