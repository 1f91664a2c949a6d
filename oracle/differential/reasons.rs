// Why a text is noise. What is expected of a call is written here a second time, from 02 [8] alone: the oracle's own counters, told after every character that it
// feeds (oracle::open::numerators), say where each numerator grew, and the oracle's eight ratios say which detector is the first with the greatest. Compared after each
// call: number, place, detector, count, every entry of the output, the text, the tables and what stands beside them. And what a code point is: the crate's flags and
// range of every one.
use crate::aimed::{AIMS, Shelves};
use crate::library::{self, BYTE, Guarded, HostClass, HostReason, Lent, WORD, text_of};
use crate::tables::{BUILTIN_END, Record};
use crate::texts::{self, Alphabet};
use crate::{LONGEST_TEXT, Run, causes, chars, hex, oracle_score, smallest, tables};
use oracle::open::LENT;

// Accents 1741/4712 is above symbols 2804/7589, and both round to 3EBD2CC4.
const TIED: [(usize, usize); 2] = [(2804, 7589), (1741, 4712)];

// The first detector with the greatest ratio, 1 to 8, or 0 where that is 0; and where its numerator grew.
fn reason(text: &[u32], threshold: Option<f32>) -> (u32, Vec<u32>) {
    let ratios = oracle_score(text, threshold).ratios;
    let mut detector = 0;
    for d in 1..8 {
        if ratios[d] > ratios[detector] {
            detector = d;
        }
    }
    if ratios[detector] == 0.0 {
        return (0, vec![]);
    }
    let mut list = vec![];
    let mut before = 0;
    for (i, after) in oracle::open::numerators(&chars(text), threshold).iter().enumerate() {
        if after[detector] > before {
            list.push(i as u32);
        }
        before = after[detector];
    }
    (detector as u32 + 1, list)
}

// Scoring's refusals, then 3; else the list in the first places and the rest as it was.
fn expected(text: &[u32], threshold: f32, classes: &[u8], pairs: &[u8], before: &[u32]) -> (HostReason, Vec<u32>) {
    let refused = |number, place| (HostReason { number, place, detector: 0, count: 0 }, before.to_vec());
    if let Some(why) = causes::scoring(text, Some(threshold), classes, pairs) {
        return refused(why.0, why.1);
    }
    let (detector, list) = reason(text, Some(threshold));
    if list.len() > before.len() {
        return refused(3, 0);
    }
    let mut after = before.to_vec();
    after[..list.len()].copy_from_slice(&list);
    (HostReason { number: 0, place: 0, detector, count: list.len() as u32 }, after)
}

// A text in which 2 for each symbol over the printable characters, and the accented letters over all letters, are these fractions. Short words of accented letters
// with different bases, long plain words, signs one after the other of which none repeats, and digits make no other ratio as great.
fn tied(symbols: (usize, usize), accents: (usize, usize), behind: usize) -> Vec<u32> {
    let mut text = vec![];
    for i in 0..accents.0 {
        text.push([0xE9, 0xE0][i % 2]);
        if i % 3 == 2 {
            text.push(0x20);
        }
    }
    text.push(0x20);
    for i in 0..accents.1 - accents.0 {
        text.push(0x61);
        if i % 20 == 19 {
            text.push(0x20);
        }
    }
    text.push(0x20);
    (0..symbols.0 / 2).for_each(|i| text.push([0x2190, 0x2191][i % 2]));
    text.push(0x20);
    (text.len()..symbols.1 - behind).for_each(|i| text.push(if i % 2 == 0 { 0x30 } else { 0x31 }));
    text
}

impl Run {
    pub fn all_reasons(&mut self, classes: &[u8], pairs: &[u8]) {
        let records = tables::records(classes);
        let (alphabet, shelves) = (&Alphabet::new(&records), &Shelves::new(&records, pairs));
        let lent = &Lent::new(classes, pairs);
        self.during("reasons of aimed texts", |run| run.aimed_reasons(run.times(300, 6_000), shelves, lent));
        self.during("each detector the greatest", |run| run.every_greatest(run.times(4_000, 80_000), alphabet, shelves, lent));
        self.during("ratios that round alike", |run| run.alike(lent));
        self.during("room for a reason", |run| run.rooms_of_reasons(run.times(600, 10_000), alphabet, lent));
        self.during("reasons with lent tables", |run| run.lent_reasons(run.times(60, 1_000)));
        self.during("causes of a reason", |run| run.causes_of_reasons(run.times(4, 60), classes, pairs));
        self.during("reasons of the longest texts", |run| run.longest_reasons(alphabet, run.times(1, 8), lent));
        self.during("reasons of bytes, and the Rust package's", |run| {
            run.package_reasons(alphabet, run.times(1_000, 20_000), classes, pairs)
        });
        self.during("what a code point is", |run| run.every_class(classes, &records));
        eprintln!("reasons by detector, none first: {:?}; lists that end with the newline: {}", self.reasons, self.newlines);
        if self.survey == 0 && (self.reasons.contains(&0) || self.newlines == 0) {
            self.fail(|| "a detector was never the reason, or the newline never listed".into());
        }
    }

    // One call, with an output of this room.
    fn reasoned(&mut self, text: &[u32], threshold: f32, lent: &Lent, room: usize) -> HostReason {
        self.counted();
        let before: Vec<u32> = (0..room).map(|_| self.random.next() as u32).collect();
        let (given, mut out) = (text_of(text), Guarded::new(&before, WORD));
        let told = library::reason(given.list(), threshold, lent, &mut out);
        let (answer, after) = expected(text, threshold, lent.classes.list(), lent.pairs.list(), &before);
        self.refused += (answer.number != 0) as u64;
        if told != answer || !out.holds(&after) || !given.whole() {
            self.fail(|| {
                let differs = |t: &[u32]| {
                    let mut out = Guarded::new(&before, WORD);
                    let told = library::reason(t, threshold, lent, &mut out);
                    let (answer, after) = expected(t, threshold, lent.classes.list(), lent.pairs.list(), &before);
                    told != answer || !out.holds(&after)
                };
                let small = if differs(text) { smallest(text, differs) } else { text.to_vec() };
                let (answer, after) = expected(&small, threshold, lent.classes.list(), lent.pairs.list(), &before);
                let mut out = Guarded::new(&before, WORD);
                let told = library::reason(&small, threshold, lent, &mut out);
                let listed = &after[..answer.count as usize];
                format!(
                    "threshold {threshold}, room {room}, text {}\nlibrary  {told:?}\nexpected {answer:?} {listed:?}",
                    hex(&small[..small.len().min(100)])
                )
            });
        }
        if answer.number == 0 {
            self.reasons[answer.detector as usize] += 1;
            self.newlines += (answer.count > 0 && after[answer.count as usize - 1] as usize == text.len()) as u64;
        }
        answer
    }

    fn aimed_reasons(&mut self, times: usize, shelves: &Shelves, lent: &Lent) {
        for at in 0..times * AIMS.len() {
            let text = AIMS[at % AIMS.len()](&mut self.random, shelves);
            let threshold = texts::threshold(&mut self.random).unwrap_or(0.15);
            self.reasoned(&text, threshold, lent, text.len() + 1);
        }
    }

    // Texts of every kind until each detector was the greatest in some, with and without an early stop, and the newline was listed.
    fn every_greatest(&mut self, times: usize, alphabet: &Alphabet, shelves: &Shelves, lent: &Lent) {
        for at in 0..times {
            let n = texts::length(&mut self.random);
            let mut text = match at % 9 {
                // bad words of one sign each, closed by spaces, or the last one by the newline
                0 => (0..n).map(|i| [0x2190, 0x61, 0x20][i % 3]).collect(),
                // CJK, with stops that are none among it
                1 => (0..n).map(|i| if i % 5 == 4 { 0x4E04 + (i as u32 & 1) } else { 0x4E10 + i as u32 % 200 }).collect(),
                // letters of changing case in long runs
                2 => (0..n).map(|i| if i % 30 == 29 { 0x20 } else { [0x61, 0x42][i % 2] + (i / 2 % 20) as u32 }).collect(),
                // doubled accents, both upper case and alike
                3 => (0..n).map(|i| if i % 7 < 4 { [0xC9, 0xC8, 0xE9][self.random.below(3)] } else { 0x61 }).collect(),
                // ranges that do not go together
                4 => (0..n).map(|i| [0x61, 0x3B1, 0x434, 0x5D0, 0x4E10, 0x1100][(i + self.random.below(2)) % 6]).collect(),
                5 => aimed_long(&mut self.random, shelves, n),
                _ => alphabet.text(&mut self.random, n),
            };
            text.truncate(n);
            let threshold = if at % 2 == 0 { 1000.0 } else { texts::threshold(&mut self.random).unwrap_or(0.15) };
            self.reasoned(&text, threshold, lent, n + 1);
        }
    }

    // Two fractions that round to the same f32: the first detector is named, whichever is the larger.
    fn alike(&mut self, lent: &Lent) {
        let mut alike = 0;
        for behind in 0..3 {
            let text = tied(TIED[0], TIED[1], behind);
            let told = self.reasoned(&text, 1000.0, lent, text.len() + 1);
            let ratios = oracle_score(&text, Some(1000.0)).ratios;
            if (ratios[0].to_bits(), ratios[1].to_bits()) == (0x3EBD_2CC4, 0x3EBD_2CC4) {
                alike += 1;
                if told.detector != 1 && self.survey == 0 {
                    self.fail(|| format!("of equal ratios {told:?} is named"));
                }
            }
        }
        if alike == 0 && self.survey == 0 {
            self.fail(|| "no text had the two ratios that round alike".into());
        }
    }

    // Outputs that are exactly full, one short, one over, and of none.
    fn rooms_of_reasons(&mut self, times: usize, alphabet: &Alphabet, lent: &Lent) {
        for _ in 0..times {
            let n = texts::length(&mut self.random);
            let text = alphabet.text(&mut self.random, n);
            let threshold = texts::threshold(&mut self.random).unwrap_or(0.15);
            let count = self.reasoned(&text, threshold, lent, n + 1).count as usize;
            for room in [count, count.saturating_sub(1), count + 1, 0] {
                self.reasoned(&text, threshold, lent, room);
            }
        }
    }

    // Class tables and pair tables that are drawn, lent to both sides.
    fn lent_reasons(&mut self, times: usize) {
        for _ in 0..times {
            let most = [3, 40, 300][self.random.below(3)];
            let records = tables::random_records(&mut self.random, most);
            let (classes, pairs) = (tables::bytes(&records), tables::random_pairs(&mut self.random));
            LENT.with_borrow_mut(|l| {
                l.classes = Some(tables::for_oracle(&records));
                l.pairs = Some(pairs.clone());
            });
            let (alphabet, lent) = (Alphabet::new(&records), Lent::new(&classes, &pairs));
            for _ in 0..30 {
                let n = texts::length(&mut self.random);
                let text = alphabet.text(&mut self.random, n);
                let threshold = texts::threshold(&mut self.random).unwrap_or(0.15);
                self.reasoned(&text, threshold, &lent, n + 1);
            }
            LENT.with_borrow_mut(|l| *l = oracle::open::Lent::default());
        }
    }

    // Every set of causes at once: 1, 4, 5, 7, 6, 3.
    fn causes_of_reasons(&mut self, times: usize, classes: &[u8], pairs: &[u8]) {
        let real = tables::records(classes);
        for set in (0..times).flat_map(|_| 0..64) {
            let has = |n: usize| set >> n & 1 == 1;
            let n = if has(0) { LONGEST_TEXT + 1 + self.random.below(3) } else { 20 + self.random.below(60) };
            let mut text: Vec<u32> = (0..n).map(|_| self.random.below(0x20) as u32).collect();
            if has(4) {
                let at = self.random.below(text.len() + 1);
                text.insert(at, *self.random.pick(&[0xD800, 0xDFFF, 0x110000, u32::MAX]));
            }
            let threshold = if has(1) { *self.random.pick(&[f32::NAN, f32::INFINITY, f32::NEG_INFINITY]) } else { 1000.0 };
            let bad = self.bad_classes(&real);
            let lent = Lent::new(if has(2) { &bad } else { classes }, if has(3) { &pairs[1..] } else { pairs });
            let room = if has(5) { self.random.below(3) } else { n + 2 };
            self.reasoned(&text, threshold, &lent, room);
            if !lent.whole() {
                self.fail(|| "a lent table was changed".into());
            }
        }
    }

    fn longest_reasons(&mut self, alphabet: &Alphabet, times: usize, lent: &Lent) {
        for _ in 0..times {
            for n in LONGEST_TEXT - 1..=LONGEST_TEXT + 1 {
                let text = alphabet.text(&mut self.random, n);
                self.reasoned(&text, 1000.0, lent, n + 1);
            }
            // an unprintable at every index: as long a list as there is, but for the newline
            let text = vec![1; LONGEST_TEXT];
            for room in [LONGEST_TEXT - 1, LONGEST_TEXT, LONGEST_TEXT + 1] {
                self.reasoned(&text, 1000.0, lent, room);
            }
        }
    }

    // Bytes in one call, and what the package makes of them.
    fn package_reasons(&mut self, alphabet: &Alphabet, times: usize, classes: &[u8], pairs: &[u8]) {
        let tables = drasumira::Tables::new(classes.to_vec(), pairs.to_vec()).expect("good tables");
        let lent = Lent::new(classes, pairs);
        for at in 0..times {
            self.counted();
            let n = texts::length(&mut self.random);
            let bytes = self.bytes_of_text(alphabet, n);
            let threshold = if at % 16 == 1 { f32::NAN } else { texts::threshold(&mut self.random).unwrap_or(0.15) };
            let room = [n + 1, n / 4, 0][self.random.below(3)];
            let before: Vec<u32> = (0..room).map(|_| self.random.next() as u32).collect();
            let (given, mut out) = (Guarded::new(&bytes, BYTE), Guarded::new(&before, WORD));
            let told = library::reason_utf8(given.list(), threshold, &lent, &mut out);
            let (answer, after) = match causes::points(&bytes) {
                Err(why) => (HostReason { number: why.0, place: why.1, detector: 0, count: 0 }, before.clone()),
                Ok(text) => expected(&text, threshold, classes, pairs, &before),
            };
            self.refused += (answer.number != 0) as u64;
            if told != answer || !out.holds(&after) || !given.whole() {
                self.fail(|| format!("{} bytes, threshold {threshold}, room {room}\nlibrary  {told:?}\nexpected {answer:?}", bytes.len()));
            }
            let whole: Vec<u32> = vec![0; n + 2];
            let said = drasumira::why(&bytes[..], Some(threshold), &tables);
            let same = match (causes::points(&bytes), &said) {
                (Err(why), Err(refusal)) => why == (refusal.number, refusal.place),
                (Ok(text), Err(refusal)) => {
                    let (answer, _) = expected(&text, threshold, classes, pairs, &whole);
                    (answer.number, answer.place) == (refusal.number, refusal.place)
                }
                (Ok(text), Ok(said)) => {
                    let (answer, after) = expected(&text, threshold, classes, pairs, &whole);
                    let list = &after[..answer.count as usize];
                    let character = |i: &u32| text.get(*i as usize).map_or(Some('\n'), |p| char::from_u32(*p));
                    match said {
                        None => (answer.number, answer.detector) == (0, 0),
                        Some(why) => {
                            let told = oracle_score(&text, Some(threshold)).counts[why.detector as usize];
                            why.detector.number() == answer.detector
                                && [why.share.numerator, why.share.denominator] == told[..2]
                                && why.indexes.iter().map(|i| *i as u32).eq(list.iter().copied())
                                && why.characters.iter().map(|c| Some(*c)).eq(list.iter().map(character))
                        }
                    }
                }
                _ => false,
            };
            if !same {
                self.fail(|| format!("{} bytes, threshold {threshold}: the package's why is {said:?}", bytes.len()));
            }
        }
    }

    // The flags and the range of every code point, and of numbers that are none; with a table of few records, and with a bad one.
    fn every_class(&mut self, classes: &[u8], records: &[Record]) {
        let few = &records[..records.len() / 2];
        let (some, bad) = (tables::bytes(few), &classes[1..]);
        let step = if self.full { 1 } else { 7 };
        for point in (0..0x11_0000).step_by(step).chain([0xD7FF, 0xD800, 0xDFFF, 0xE000, 0x10_FFFF, 0x11_0000, u32::MAX]) {
            let class = char::from_u32(point).map(|c| {
                let k = oracle::open::crate_class(c);
                HostClass { number: 0, place: 0, flags: k.flags, range: k.range as u32 }
            });
            let missing = HostClass { number: 6, ..HostClass::default() };
            self.classed(point, classes, class.unwrap_or(missing));
            let held = point < BUILTIN_END || few.iter().any(|r| r.first <= point && point <= r.last);
            if point % 64 == 0 {
                self.classed(point, &some, if held { class.unwrap_or(missing) } else { missing });
                self.classed(point, bad, HostClass { number: 5, ..HostClass::default() });
            }
        }
    }

    fn classed(&mut self, point: u32, classes: &[u8], expected: HostClass) {
        self.counted();
        let told = library::class(point, classes);
        self.refused += (expected.number != 0) as u64;
        if told != expected {
            self.fail(|| format!("the class of {point:X}\nlibrary  {told:?}\nexpected {expected:?}"));
        }
    }
}

fn aimed_long(r: &mut crate::random::Random, shelves: &Shelves, n: usize) -> Vec<u32> {
    crate::aimed::long(r, shelves, n)
}
