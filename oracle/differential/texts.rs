// Texts that find faults: of every script, of every kind of flag word, of runs, words and cases.
use crate::random::Random;
use crate::tables::{BUILTIN_END, Record};
use oracle::open::crate_class;
use std::collections::BTreeMap;

// Letters of which words come, with accents and case: e é and so on, and what stands between words.
const LETTERS: [u32; 24] = [
    0x65, 0x65, 0x65, 0x61, 0x69, 0x6F, 0x75, 0x74, 0x6E, 0x73, 0x72, 0x6C, 0x45, 0x41, 0x54, 0xE9, 0xE8, 0xE0, 0xC9, 0xC0, 0x20, 0x0A,
    0x2C, 0x2E,
];

// The code points that texts are made of.
pub struct Alphabet {
    pub representatives: Vec<u32>, // the first code point of each distinct flag word
    ranges: Vec<Vec<(u32, u32)>>,  // the runs of each range number
    all: Vec<(u32, u32)>,
}

impl Alphabet {
    // Of the built-in code points and these records.
    pub fn new(records: &[Record]) -> Alphabet {
        let mut flags: BTreeMap<u32, u32> = BTreeMap::new();
        let mut ranges: BTreeMap<u16, Vec<(u32, u32)>> = BTreeMap::new();
        let mut all = vec![];
        let builtin = (0..BUILTIN_END).map(|p| {
            let class = crate_class(char::from_u32(p).expect("a scalar value"));
            (p, p, class.flags, class.range)
        });
        for (first, last, word, range) in builtin.chain(records.iter().map(|r| (r.first, r.last, r.flags, r.range))) {
            flags.entry(word).or_insert(first);
            ranges.entry(range).or_default().push((first, last));
            all.push((first, last));
        }
        let mut representatives: Vec<u32> = flags.into_values().collect();
        representatives.sort();
        Alphabet { representatives, ranges: ranges.into_values().collect(), all }
    }

    fn of(r: &mut Random, runs: &[(u32, u32)]) -> u32 {
        let (first, last) = *r.pick(runs);
        first + r.below((last - first + 1) as usize) as u32
    }

    // A text of n characters, in one of several manners.
    pub fn text(&self, r: &mut Random, n: usize) -> Vec<u32> {
        let mine: Vec<usize> = (0..1 + r.below(3)).map(|_| r.below(self.ranges.len())).collect();
        let manner = r.below(7);
        let word = 1 + r.below(30);
        let between: Vec<u32> = (0..1 + r.below(4)).map(|_| *r.pick(&[0x20, 0x20, 0x0A, 0x2C, 0x2E, 0x09, 0x2D, 0xA0, 0x22])).collect();
        let mut text: Vec<u32> = Vec::with_capacity(n);
        while text.len() < n {
            let last = text.last().copied();
            let point = match manner {
                0 => Self::of(r, &self.all),
                1 => *r.pick(&self.representatives),
                2 if r.below(3) > 0 => last.unwrap_or(0x41),
                3 => *r.pick(&LETTERS),
                4 => [0x41 + r.below(26), 0x61 + r.below(26), 0xC0 + r.below(0x190), 0x20][r.below(4)] as u32,
                5 => r.below(0x250) as u32,
                _ => {
                    let range = *r.pick(&mine);
                    if r.below(word + 1) == 0 { *r.pick(&between) } else { Self::of(r, &self.ranges[range]) }
                }
            };
            text.push(point);
        }
        text
    }
}

// A length: short ones, lines, and those beside a boundary.
pub const BOUNDARIES: [usize; 24] =
    [0, 1, 2, 30, 31, 32, 33, 63, 64, 65, 95, 127, 128, 129, 509, 510, 511, 512, 575, 1022, 1023, 1024, 1025, 1151];

pub fn length(r: &mut Random) -> usize {
    match r.below(8) {
        0 => *r.pick(&BOUNDARIES),
        1 => r.below(1400),
        2 => r.below(300),
        _ => r.below(80),
    }
}

pub fn threshold(r: &mut Random) -> Option<f32> {
    match r.below(12) {
        0 => Some(0.0),
        1 => Some(-0.0),
        2 => Some(-(r.below(100) as f32) / 7.0),
        3 => Some(f32::from_bits(1)),
        4 => Some(*r.pick(&[f32::MAX, f32::MIN, 0.2, 0.1])),
        5 | 6 => None,
        7 | 8 => Some(r.below(3000) as f32 / 1000.0),
        _ => Some(1000.0),
    }
}
