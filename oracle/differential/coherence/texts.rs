// Texts, thresholds, numbers and tables that find faults in a ranking.
use super::causes::{DOT_ABOVE, DOTTED_I};
use crate::random::Random;
use crate::tables::{BUILTIN_END, Record, random_records};
use oracle::open::crate_class;
use std::collections::BTreeMap;

pub const LONGEST: usize = 8_192;
const ACCENTUATED: u32 = 1 << 14;
const CHAR_ALPHABETIC: u32 = 1 << 24;
const BETWEEN: [u32; 8] = [0x20, 0x20, 0x20, 0x0A, 0x2C, 0x2E, 0x31, 0x2D];
const MOST_OF_A_RECORD: u32 = 40;

// The letters that a class table takes.
pub struct Letters {
    ranges: Vec<Vec<u32>>,            // lowered letters that a character of the same range is lowered to, for each range
    written: BTreeMap<u32, Vec<u32>>, // the characters that are lowered to a letter
    pub all: Vec<u32>,                // every lowered letter
}

impl Letters {
    // Of the built-in characters and of some in each record; only such whose lower-case letters have a class.
    pub fn new(records: &[Record]) -> Letters {
        let builtin = (0..BUILTIN_END).map(|p| {
            let class = crate_class(char::from_u32(p).expect("a scalar value"));
            (p, p, class.flags, class.range, class.lower)
        });
        let classed = |p: u32| p < BUILTIN_END || records.iter().any(|r| r.first <= p && p <= r.last);
        let mut ranges: BTreeMap<u16, Vec<u32>> = BTreeMap::new();
        let mut written: BTreeMap<u32, Vec<u32>> = BTreeMap::new();
        for (first, last, flags, range, lower) in builtin.chain(records.iter().map(|r| (r.first, r.last, r.flags, r.range, r.lower))) {
            if flags & CHAR_ALPHABETIC == 0 || range == 0 || (lower != 0 && !classed(lower)) || (first == DOTTED_I && !classed(DOT_ABOVE)) {
                continue;
            }
            for point in (first..=last).take(MOST_OF_A_RECORD as usize) {
                let letter = if lower == 0 { point } else { lower };
                written.entry(letter).or_default().push(point);
                ranges.entry(range).or_default().push(letter);
            }
        }
        for letters in ranges.values_mut() {
            letters.sort();
            letters.dedup();
        }
        let all = written.keys().copied().collect();
        Letters { ranges: ranges.into_values().collect(), written, all }
    }

    // So many different letters of one range, or of several, in any order.
    pub fn alphabet(&self, r: &mut Random) -> Vec<u32> {
        let most = [4, 30, 30, 60, 256][r.below(5)];
        let n = 1 + r.below(most);
        let mut letters = vec![];
        for _ in 0..1 + r.below(2) {
            letters.extend(r.pick(&self.ranges));
        }
        letters.sort();
        letters.dedup();
        shuffle(r, &mut letters);
        letters.truncate(n);
        letters
    }

    // A letter as it may stand in a text.
    fn write(&self, r: &mut Random, letter: u32) -> u32 {
        match self.written.get(&letter) {
            Some(written) if r.below(8) == 0 => *r.pick(written),
            Some(written) if written.contains(&letter) => letter,
            Some(written) => *r.pick(written),
            None => letter,
        }
    }

    // A text of n characters whose letters are those of the alphabets, the first ones most often, words and marks between; now and then in
    // just that order, or with other letters. A letter that no character is lowered to stands as it is.
    pub fn text(&self, r: &mut Random, alphabets: &[Vec<u32>], n: usize) -> Vec<u32> {
        let mine: Vec<&Vec<u32>> = (0..1 + r.below(4)).map(|_| r.pick(alphabets)).collect();
        let exact = r.below(3) == 0;
        let (spaces, foreign) = (r.below(3), r.below(8) == 0);
        let mut text = Vec::with_capacity(n);
        let mut letters = *r.pick(&mine);
        while text.len() < n {
            if r.below(40) == 0 {
                letters = *r.pick(&mine);
            }
            if exact {
                // the first letter as many times as there are letters, the last one once
                let round: Vec<u32> = (0..letters.len()).flat_map(|i| letters[..letters.len() - i].to_vec()).collect();
                text.extend(round.into_iter().map(|letter| self.write(r, letter)).take(n - text.len()));
                letters = *r.pick(&mine);
            } else if r.below(10) < spaces {
                text.push(*r.pick(&BETWEEN));
            } else if foreign && r.below(30) == 0 {
                let letter = *r.pick(&self.all);
                text.push(self.write(r, letter));
            } else {
                let at = r.below(letters.len()).min(r.below(letters.len()));
                text.push(self.write(r, letters[at]));
            }
        }
        if r.below(2) == 0 {
            shuffle(r, &mut text);
        }
        text
    }
}

pub fn shuffle<T>(r: &mut Random, list: &mut [T]) {
    for i in (1..list.len()).rev() {
        list.swap(i, r.below(i + 1));
    }
}

// A length: most about as long as layers need to be ranked, and some up to the longest.
pub fn length(r: &mut Random) -> usize {
    match r.below(40) {
        0 => r.below(LONGEST + 1),
        1..=4 => r.below(1_500),
        5..=9 => r.below(40),
        10 => *r.pick(&[0, 1, 31, 32, 33, 34, 35]),
        _ => 33 + r.below(400),
    }
}

pub fn threshold(r: &mut Random) -> Option<f32> {
    match r.below(16) {
        0 => Some(0.0),
        1 => Some(-0.0),
        2 => Some(-(r.below(100) as f32) / 7.0),
        3 => Some(f32::from_bits(1)),
        4 => Some(*r.pick(&[f32::MAX, f32::MIN, 1.0, 1.0f32.next_up(), 2.0])),
        5 => Some(*r.pick(&[0.8, 0.8f32.next_up(), 0.8f32.next_down(), 0.1, 0.1f32.next_up()])),
        6..=9 => Some(r.below(1000) as f32 / 1000.0),
        _ => None,
    }
}

// Included numbers that the table has: none, the lone 0, one, several, as many as are allowed.
pub fn included(r: &mut Random, numbers: &[u32]) -> Vec<u32> {
    let n = match r.below(10) {
        _ if numbers.is_empty() => 0,
        6 => 1,
        7 => 2 + r.below(5),
        8 => 64,
        9 => 1 + r.below(64),
        _ => 0,
    };
    if n == 0 && r.below(5) == 0 {
        return vec![0];
    }
    let few: Vec<u32> = (0..1 + r.below(6)).filter_map(|_| (!numbers.is_empty()).then(|| *r.pick(numbers))).collect();
    let from = if r.below(3) == 0 { &few[..] } else { numbers };
    (0..n).map(|_| *r.pick(from)).collect()
}

// A good class table most of whose characters are letters, in few ranges or many, with lower-case letters that have a class but for a few;
// the others' lower case, which nothing reads, may have none.
pub fn random_classes(r: &mut Random) -> Vec<Record> {
    let most = [3, 40, 300][r.below(3)];
    let mut records = random_records(r, most);
    let ranges = [1, 3, 10, 511][r.below(4)];
    let astray = r.below(4) == 0;
    for i in 0..records.len() {
        let other = records[r.below(records.len())];
        let lower = [0, r.below(BUILTIN_END as usize) as u32, other.first, other.last][r.below(4)];
        let record = &mut records[i];
        if r.below(6) > 0 {
            record.flags |= CHAR_ALPHABETIC;
        }
        if r.below(8) > 0 {
            record.range = 1 + r.below(ranges) as u16;
        }
        let taken = record.flags & CHAR_ALPHABETIC != 0 && record.range != 0;
        if taken && !(astray && r.below(8) == 0) {
            record.lower = lower;
        }
    }
    if r.below(2) == 0 {
        put_dot(r, &mut records, ranges);
    }
    records
}

// A record of U+0307 alone, of any kind, where none holds it: with it U+0130 is no longer refused.
fn put_dot(r: &mut Random, records: &mut Vec<Record>, ranges: usize) {
    let at = records.partition_point(|record| record.last < DOT_ABOVE);
    if records.get(at).is_some_and(|record| record.first <= DOT_ABOVE) {
        return;
    }
    let flags = *r.pick(&[0, ACCENTUATED, CHAR_ALPHABETIC, CHAR_ALPHABETIC | ACCENTUATED]);
    let range = r.below(1 + ranges) as u16;
    records.insert(at, Record { first: DOT_ABOVE, last: DOT_ABOVE, flags, range, zero: 0, base: 0, lower: 0 });
}

// Turkish place names as they stand on signs and in letters: U+0130 and U+0131 beside I and i.
const PLACES: [&str; 12] = [
    "İSTANBUL", "İzmir", "İZMİR", "Diyarbakır", "DİYARBAKIR", "Iğdır", "İskenderun", "ŞİŞLİ", "Eskişehir", "ÇİÇEKDAĞI", "Kırklareli", "BİTLİS",
];

// Such names with spaces and marks between, n characters of them.
pub fn turkish(r: &mut Random, n: usize) -> Vec<u32> {
    let mut text: Vec<u32> = vec![];
    while text.len() < n {
        text.extend(r.pick(&PLACES).chars().map(u32::from));
        text.push(*r.pick(&BETWEEN));
    }
    text.truncate(n);
    text
}
