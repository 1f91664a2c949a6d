// The aimed texts (aimed.rs) and the aimed tables, each put to the library: cut-offs, limits and periods, with thresholds at a sum that is reached;
// class tables at the edges of each of 01's rules; characters in the gaps of a lent table.
use crate::aimed::{self, AIMS, Shelves};
use crate::library::Lent;
use crate::tables::{self, BUILTIN_END, Record};
use crate::texts::Alphabet;
use crate::{DEFAULT_THRESHOLD, LONGEST_TEXT, Run, sum_after};
use oracle::open::LENT;

const NEVER: f32 = 1000.0;
const PERIODS: [(usize, usize); 3] = [(510, 32), (1023, 64), (usize::MAX, 128)];
const MOST_RECORDS: u32 = 8_192;
const FLAG_BITS: u32 = 32;

// The first checkpoint of a long text; and rests behind it that are shorter, as long and longer than those of which the library first asks whether
// the table holds every scalar value.
const FIRST_STOP: usize = 128;
const RESTS: [usize; 5] = [1_024, 1_535, 1_536, 1_537, 3_000];

const EDGES: [u32; 20] = [
    0,
    1,
    0x24F,
    0x250,
    0x251,
    0x10000,
    0x10001,
    0xD7FE,
    0xD7FF,
    0xD800,
    0xD801,
    0xDBFF,
    0xDFFF,
    0xE000,
    0xE001,
    0x10FFFE,
    0x10FFFF,
    0x110000,
    0x8000_0000,
    u32::MAX,
];
const RANGE_EDGES: [u16; 6] = [0, 1, 510, 511, 512, u16::MAX];

pub fn period(n: usize) -> usize {
    PERIODS.iter().find(|(most, _)| n <= *most).expect("a period").1
}

impl Run {
    // A text whole, and then with a threshold at the sum of a checkpoint, where it has one, and the floats beside that.
    fn aimed_at(&mut self, text: &[u32], lent: &Lent) {
        self.accepted(text, Some(NEVER), lent);
        let period = period(text.len());
        let checkpoints = (text.len() + 1) / period;
        if checkpoints == 0 {
            return self.accepted(text, Some(0.0), lent);
        }
        let which = 1 + self.random.below(checkpoints);
        let sum = sum_after(text, period * which);
        for threshold in [sum, sum.next_up(), sum.next_down()] {
            self.accepted(text, Some(threshold), lent);
        }
        self.accepted(text, None, lent);
    }

    pub fn aimed_texts(&mut self, times: usize, shelves: &Shelves, lent: &Lent) {
        for aim in (0..times).flat_map(|_| AIMS) {
            let text = aim(&mut self.random, shelves);
            self.aimed_at(&text, lent);
        }
    }

    // Lengths at each period's edges and at the checkpoints, the one at the newline among them.
    pub fn aimed_periods(&mut self, times: usize, shelves: &Shelves, lent: &Lent) {
        for _ in 0..times {
            for n in [30, 31, 32, 33, 62, 63, 64, 95, 127, 509, 510, 511, 512, 575, 639, 1022, 1023, 1024, 1025, 1151, 1279] {
                let text = aimed::long(&mut self.random, shelves, n);
                self.aimed_at(&text, lent);
            }
        }
    }

    // Runs that end at the checkpoints of each period and on both sides of them, and at the newline; one character without a class among them.
    pub fn aimed_runs(&mut self, times: usize, shelves: &Shelves, lent: &Lent) {
        for _ in 0..times {
            for n in [1, 31, 32, 33, 63, 64, 65, 127, 128, 129, 509, 510, 511, 575, 576, 577, 1022, 1023, 1024, 1151, 1152, 1153] {
                let mut text = aimed::runs(&mut self.random, shelves, n);
                self.aimed_at(&text, lent);
                let at = self.random.below(n);
                text[at] = 0xD800 + self.random.below(0x800) as u32;
                for threshold in [NEVER, 0.0] {
                    self.scored(&text, Some(threshold), lent.classes.list(), lent.pairs.list());
                }
            }
        }
    }

    // The threshold that the default call takes, f32 0.15: sums of just that, of the floats next to it, and of the fractions next to it; and the 0.2
    // that it was before.
    pub fn aimed_default(&mut self, times: usize, lent: &Lent) {
        for at in 0..times {
            // k doubled accents over n letters and no other ratio: 2k/n; the accents stand last, so that no checkpoint before the end sees them
            let (k, n) = [(3, 40), (2, 27), (2, 26), (3, 39), (3, 41), (2, 20), (2, 19)][at % 7];
            let mut text = vec![0x20; 63 - n + self.random.below(2)];
            text.extend(vec![0x6F; n - 3 * k]);
            text.extend((0..k).flat_map(|_| [0x6F, 0xE9, 0xE8]));
            self.beside_the_default(&text, lent);
        }
        // of 320 characters 4 unprintable, one doubled accent over 64 Latin letters, three pairs of case changes: 1/10 + 1/32 + 3/160 is 0.15, and
        // comes to the float before it; of 480, 8 unprintable, one over 240 letters, two pairs: the float behind it
        for (n, unprintable, letters, changes) in [(320, 4, 64, 3), (480, 8, 240, 2)] {
            let mut end = vec![0x20];
            end.extend((0..2 * changes + 1).map(|i| if i % 2 == 0 { 0x430 } else { 0x410 }));
            end.extend(vec![0x01; unprintable]);
            let mut text = vec![0x20; n - 1 - letters - end.len()];
            text.extend(vec![0x6F; letters - 2]);
            text.extend([0xE9, 0xE8]);
            text.extend(end);
            self.beside_the_default(&text, lent);
        }
    }

    fn beside_the_default(&mut self, text: &[u32], lent: &Lent) {
        self.accepted(text, None, lent);
        for threshold in [DEFAULT_THRESHOLD.next_down(), DEFAULT_THRESHOLD, DEFAULT_THRESHOLD.next_up(), 0.2] {
            self.accepted(text, Some(threshold), lent);
        }
    }

    // The same aims with lent tables that have every kind of flag word, and a record for the stops.
    pub fn aimed_lent(&mut self, times: usize) {
        for at in 0..times {
            let mut records = tables::random_records(&mut self.random, [20, 60, 200][at % 3]);
            if at % 4 == 0 {
                let end = records.partition_point(|record| record.last < 0x4E00);
                records.truncate(end);
                let flags = tables::random_flags(&mut self.random);
                records.push(Record { first: 0x4E00, last: 0x4E40, flags, range: 9, zero: 0, base: 0, lower: 0 });
            }
            let (classes, pairs) = (tables::bytes(&records), tables::random_pairs(&mut self.random));
            lend(&records, &pairs);
            let (shelves, lent) = (Shelves::new(&records, &pairs), Lent::new(&classes, &pairs));
            self.aimed_texts(2, &shelves, &lent);
            let n = 1 + self.random.below(200);
            let text = aimed::runs(&mut self.random, &shelves, n);
            self.aimed_at(&text, &lent);
            self.gaps(&records, &classes, &pairs);
            LENT.with_borrow_mut(|l| *l = oracle::open::Lent::default());
        }
    }

    // Characters beside a record: in a gap before, between or behind the records, or the edge of the next.
    fn gaps(&mut self, records: &[Record], classes: &[u8], pairs: &[u8]) {
        let alphabet = Alphabet::new(records);
        for _ in 0..6 {
            let n = self.random.below(12);
            let mut text = alphabet.text(&mut self.random, n);
            for _ in 0..1 + self.random.below(2) {
                let record = *self.random.pick(records);
                let at = self.random.below(text.len() + 1);
                text.insert(at, *self.random.pick(&[record.first - 1, record.last + 1, record.first, record.last]));
            }
            text.iter_mut().filter(|p| (0xD800..0xE000).contains(*p)).for_each(|p| *p = BUILTIN_END - 1);
            self.scored(&text, Some(NEVER), classes, pairs);
        }
    }

    // Long texts that stop at their first checkpoint, over tables that hold every scalar value past the built-in table, all but one, or all but as many
    // as there are records: a rest without these and with one of them; with a number that is no scalar value; and behind characters of the built-in
    // table.
    pub fn aimed_rests(&mut self, times: usize, pairs: &[u8]) {
        for at in 0..times {
            let mut records = tables::whole_records(&mut self.random);
            let gaps = [0, 1, records.len()][at % 3];
            let missing: Vec<u32> = (0..gaps).map(|_| tables::shorten(&mut self.random, &mut records)).collect();
            let classes = tables::bytes(&records);
            lend(&records, pairs);
            for rest in RESTS {
                let builtin = FIRST_STOP + [0, self.random.below(rest)][self.random.below(2)];
                let text = self.scalar_values(FIRST_STOP + rest, builtin, &missing);
                self.scored(&text, Some(0.0), &classes, pairs);
                for wrong in missing.iter().copied().take(3).chain([0xD800, 0xDFFF, 0x110000, u32::MAX]) {
                    let mut bad = text.clone();
                    bad[FIRST_STOP + self.random.below(rest)] = wrong;
                    self.scored(&bad, Some(0.0), &classes, pairs);
                }
            }
            LENT.with_borrow_mut(|l| *l = oracle::open::Lent::default());
        }
    }

    // n scalar values, those before `builtin` of the built-in table, with the edges of the others among them, and without those missing.
    fn scalar_values(&mut self, n: usize, builtin: usize, missing: &[u32]) -> Vec<u32> {
        let mut one = |at: usize| loop {
            let any = [self.random.below(0x600), self.random.below(0x110000), *self.random.pick(&EDGES) as usize][self.random.below(3)] as u32;
            let p = if at < builtin { any % BUILTIN_END } else { any };
            if char::from_u32(p).is_some() && !missing.contains(&p) {
                return p;
            }
        };
        (0..n).map(&mut one).collect()
    }

    // Class tables of one and two records at the edges of each field, with every three flags; tables of 8,191 to 8,193 records.
    pub fn aimed_tables(&mut self, times: usize, pairs: &[u8]) {
        let good = Record { first: 0x2000, last: 0x2005, flags: 0, range: 1, zero: 0, base: 0, lower: 0 };
        for (a, b, c) in (0..FLAG_BITS).flat_map(|a| (a..FLAG_BITS).flat_map(move |b| (b..FLAG_BITS).map(move |c| (a, b, c)))) {
            self.checked(&tables::bytes(&[Record { flags: 1 << a | 1 << b | 1 << c, ..good }]));
        }
        for (first, last) in EDGES.iter().flat_map(|a| EDGES.iter().map(move |b| (*a, *b))) {
            self.checked(&tables::bytes(&[Record { first, last, ..good }]));
            self.checked(&tables::bytes(&[good, Record { first: 0x2000 + first % 9, last: 0x2000 + last % 9, ..good }]));
        }
        for edge in EDGES {
            self.checked(&tables::bytes(&[Record { base: edge, ..good }]));
            self.checked(&tables::bytes(&[Record { lower: edge, ..good }]));
        }
        for (range, zero) in RANGE_EDGES.iter().flat_map(|a| [0, 1, 0x100, 0x8000].map(|b| (*a, b))) {
            self.checked(&tables::bytes(&[good, Record { first: 0x2006, last: 0x2006, range, zero, ..good }]));
        }
        for n in MOST_RECORDS - 1..=MOST_RECORDS + 1 {
            let one = |i: u32| Record { first: 0x10000 + 2 * i, last: 0x10000 + 2 * i, flags: 0, range: 0, zero: 0, base: 0, lower: 0 };
            let records: Vec<Record> = (0..n).map(one).collect();
            let mut bytes = tables::bytes(&records);
            lend(&records, pairs);
            for text in [[0x61, 0x10000 + 2 * n - 2], [0x61, 0x10000 + 2 * n - 3], [0x10000, 0x10001]] {
                self.scored(&text, None, &bytes, pairs);
            }
            LENT.with_borrow_mut(|l| *l = oracle::open::Lent::default());
            self.checked(&bytes);
            bytes.pop();
            self.checked(&bytes);
        }
        for _ in 0..times {
            let mut two = [good, Record { first: 0x2006, last: 0x2009, ..good }];
            for _ in 0..1 + self.random.below(2) {
                tables::damage(&mut self.random, &mut two);
            }
            self.checked(&tables::bytes(&two));
        }
    }

    // Class tables of a few good records, one of them with a flag or two, an edge or another field changed.
    pub fn nearly_good(&mut self, times: usize) {
        for _ in 0..times {
            let mut records = tables::random_records(&mut self.random, 4);
            let at = self.random.below(records.len());
            let (edge, before) = (*self.random.pick(&EDGES), at.checked_sub(1).map_or(BUILTIN_END, |before| records[before].last));
            let record = &mut records[at];
            match self.random.below(8) {
                0..=3 => (0..1 + self.random.below(2)).for_each(|_| record.flags ^= 1 << self.random.below(FLAG_BITS as usize)),
                4 => record.first = before + self.random.below(3) as u32 - 1,
                5 => record.last = *self.random.pick(&[edge, record.first, record.first - 1]),
                6 => (record.first, record.last) = (edge.min(0x110000), edge.saturating_add(self.random.below(3) as u32).min(0x110000)),
                _ => (record.base, record.lower) = (edge, 0),
            }
            self.checked(&tables::bytes(&records));
        }
    }

    // Every first byte with every bound of the bytes behind it and one off on both sides, between other characters and at the end.
    pub fn aimed_bytes(&mut self) {
        let second: [&[u8]; 12] = [&[], &[0x00], &[0x7F], &[0x80], &[0x8F], &[0x90], &[0x91], &[0x9E], &[0x9F], &[0xA0], &[0xBF], &[0xC0]];
        let third: [&[u8]; 5] = [&[], &[0x7F], &[0x80], &[0xBF], &[0xC0]];
        for (lead, second) in (0..=u8::MAX).flat_map(|lead| second.map(|second| (lead, second))) {
            for (third, fourth) in third.iter().flat_map(|third| third_and_fourth(third)) {
                let bytes = [&[lead], second, third, fourth].concat();
                self.read(&bytes, 4);
                self.read(&[b"a", &bytes[..], b"b"].concat(), 5);
            }
        }
        // a byte order mark is a character as any other
        for bytes in ["\u{FEFF}", "\u{FEFF}a", "a\u{FEFF}"] {
            self.read(bytes.as_bytes(), 2);
        }
        for (bytes, room) in [(&b"\xFF"[..], 0), (b"", 0), (b"a", 0), (b"a", 1), ("é".as_bytes(), 1)] {
            self.read(bytes, room);
        }
    }

    // The longest text and one more, each with every other cause of scoring behind it.
    pub fn aimed_lengths(&mut self, classes: &[u8], pairs: &[u8]) {
        for n in [LONGEST_TEXT, LONGEST_TEXT + 1] {
            let text = vec![0x61; n];
            self.scored(&text, Some(NEVER), classes, pairs);
            self.scored(&text, Some(f32::NAN), classes, pairs);
            self.scored(&text, None, &classes[1..], pairs);
            self.scored(&text, None, classes, &pairs[1..]);
            self.scored(&[&text[1..], &[0xD800]].concat(), None, classes, pairs);
        }
    }
}

// A third byte with each fourth.
fn third_and_fourth(third: &'static [u8]) -> [(&'static [u8], &'static [u8]); 5] {
    let fourth: [&[u8]; 5] = [&[], &[0x7F], &[0x80], &[0xBF], &[0xC0]];
    fourth.map(|fourth| (third, fourth))
}

fn lend(records: &[Record], pairs: &[u8]) {
    LENT.with_borrow_mut(|l| {
        l.classes = Some(tables::for_oracle(records));
        l.pairs = Some(pairs.to_vec());
    });
}
